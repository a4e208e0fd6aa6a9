/*
 * Prints which bytes to fetch for each clip of a playlist, and its URI: `START-LAST`, the form that HTTP's header Range
 * takes behind `bytes=`, the last byte included.
 *
 *     reel < list.m3u8
 *
 * A clip without a range is `whole`. A range of no bytes is `empty`, since HTTP has no form for it. A clip whose bytes
 * cannot be told has the refusal in its line, and the others follow. The exit status is as list.h has it.
 */
#define PROGRAM "reel"
#define USAGE "usage: reel < list.m3u8\n"
#include "list.h"

/* The refusal of one clip in words: it is one of these two. */
static const char *reason(uint64_t refusal)
{
    return refusal == LEDGERFERN_NO_RANGE_BEFORE
               ? "the range has no offset, and no range of the same URI comes just before it"
               : "the window ends above 2^64 - 1";
}

static void print_bytes(const uint64_t *window)
{
    uint64_t refusal = window[LEDGERFERN_WINDOW_NUMBER];
    uint64_t start = window[LEDGERFERN_WINDOW_START], end = window[LEDGERFERN_WINDOW_END];

    if (refusal != LEDGERFERN_OK)
        printf("refused %" PRIu64 ": %s", refusal, reason(refusal));
    else if (!window[LEDGERFERN_WINDOW_PRESENT])
        printf("whole");
    else if (start == end)
        printf("empty");
    else
        printf("%" PRIu64 "-%" PRIu64, start, end - 1);
}

int main(int words, char **word)
{
    (void)word;
    if (words > 1)
        usage();
    size_t count = read_list();
    size_t window_words = count * LEDGERFERN_WINDOW_WORDS;
    uint64_t *windows = table(window_words);

    ledgerfern_windows_answer all =
        ledgerfern_windows(text, text_length, count, clips, clip_words, windows, window_words);
    refuse(all.number, all.place);
    for (size_t clip = 0; clip < count; clip++) {
        print_bytes(windows + clip * LEDGERFERN_WINDOW_WORDS);
        putchar('\t');
        print_uri(clip);
        putchar('\n');
    }
    return ended(0);
}
