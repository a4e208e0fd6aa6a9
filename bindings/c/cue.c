/*
 * Makes the cue file of a playlist, and prints what a motor board finds in it of one clip: the clip's number from 0, its
 * start in ns, its URI, and how many clips there are.
 *
 *     cue [CLIP [FILE]] < list.m3u8
 *
 * The clip is 0 where it is not given. Where a file is named, the cue file is left there. The exit status is as list.h
 * has it.
 */
#define PROGRAM "cue"
#define USAGE "usage: cue [CLIP [FILE]] < list.m3u8\n"
#include "list.h"

static uint8_t file[LEDGERFERN_MOST_CUE_FILE_BYTES];

static void leave(const char *name, size_t length)
{
    FILE *to = fopen(name, "wb");

    if (to == NULL)
        exit(failed(name));
    size_t sent = fwrite(file, 1, length, to);
    if (fclose(to) != 0 || sent != length)
        exit(failed(name));
}

int main(int words, char **word)
{
    if (words > 3)
        usage();
    uint64_t clip = words > 1 ? number("CLIP", word[1]) : 0;
    size_t count = read_list();

    ledgerfern_written_answer written =
        ledgerfern_cue_write(text, text_length, count, clips, clip_words, file, sizeof file);
    refuse(written.number, written.place);
    if (words > 2)
        leave(word[2], written.length);

    ledgerfern_cue_answer cue = ledgerfern_cue_read(file, written.length, clip);
    refuse(cue.number, cue.place);
    printf("clip\t%" PRIu64 "\nstart\t%" PRIu64 "\nuri\t", clip, cue.start);
    fwrite(file + cue.uri_start, 1, cue.uri_end - cue.uri_start, stdout);
    printf("\nclips\t%" PRIu64 "\n", cue.clips);
    return ended(0);
}
