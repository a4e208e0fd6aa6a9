/*
 * Times the calls of one archive on one text (tools/versus): versus FILE ROUNDS
 *
 * Prints the best time of each call in ns: verdict, reader, writer, and the writer where the output is one byte short, so
 * that it only measures. A call that is refused, and the writer of a list that was refused, have 0 there but for the reader.
 */
#include <inttypes.h>
#include <stdio.h>
#include <stdlib.h>
#include <time.h>

#include "ledgerfern.h"

static uint8_t text[LEDGERFERN_TEXT_LIMIT], output[8 * LEDGERFERN_TEXT_LIMIT];
static uint64_t clips[LEDGERFERN_MOST_CLIPS * LEDGERFERN_CLIP_WORDS];
static uint64_t tags[LEDGERFERN_MOST_TAGS * LEDGERFERN_TAG_WORDS];

enum { CLIP_SIZE = sizeof clips / sizeof *clips, TAG_SIZE = sizeof tags / sizeof *tags };

static uint64_t now(void)
{
    struct timespec at;

    clock_gettime(CLOCK_MONOTONIC, &at);
    return UINT64_C(1000000000) * (uint64_t)at.tv_sec + (uint64_t)at.tv_nsec;
}

static void better(uint64_t *best, uint64_t from, uint64_t to)
{
    if (*best == 0 || to - from < *best)
        *best = to - from;
}

int main(int words, char **word)
{
    uint64_t best[4] = { 0 };
    FILE *file = words == 3 ? fopen(word[1], "rb") : NULL;
    if (file == NULL)
        return 2;
    size_t length = fread(text, 1, sizeof text, file);

    for (long round = strtol(word[2], NULL, 10); round > 0; round--) {
        uint64_t t0 = now();
        ledgerfern_verdict(text, length);
        uint64_t t1 = now();
        ledgerfern_read_answer list = ledgerfern_read(text, length, clips, CLIP_SIZE, tags, TAG_SIZE);
        uint64_t t2 = now();
        better(&best[0], t0, t1);
        better(&best[1], t1, t2);
        if (list.number != LEDGERFERN_OK || list.clips == 0)
            continue;
        uint64_t t3 = now();
        ledgerfern_written_answer written = ledgerfern_write(text, length, list.head, list.clips, clips, CLIP_SIZE,
                                                             list.tags, tags, TAG_SIZE, output, sizeof output);
        uint64_t t4 = now();
        ledgerfern_write(text, length, list.head, list.clips, clips, CLIP_SIZE, list.tags, tags, TAG_SIZE, output,
                         written.length - 1);
        uint64_t t5 = now();
        better(&best[2], t3, t4);
        better(&best[3], t4, t5);
    }
    printf("%" PRIu64 " %" PRIu64 " %" PRIu64 " %" PRIu64 "\n", best[0], best[1], best[2], best[3]);
    return 0;
}
