/*
 * What the examples share: numbers from the command line, a playlist from standard input, and how a program ends. Exit
 * status: 0 where all was printed, 1 where the list or a number was refused, 2 where the arguments are no numbers, or
 * where reading or writing failed.
 *
 * A program defines PROGRAM, its name, and USAGE, a line that says how it is called, and then includes this.
 */
#ifndef LIST_H
#define LIST_H

#include <ctype.h>
#include <errno.h>
#include <inttypes.h>
#include <stdio.h>
#include <stdlib.h>

#include "ledgerfern.h"

static uint8_t text[LEDGERFERN_TEXT_LIMIT + 1]; /* a byte more than is read, so that a longer text is refused by 1 */
static size_t text_length;
static uint64_t *clips, *tags; /* tables of just as many records as the text needs */
static size_t clip_words, tag_words;

static int failed(const char *what)
{
    perror(what);
    return 2;
}

/* The status to end with: the one given, where all that was printed has gone out. */
static int ended(int status)
{
    return fflush(stdout) != 0 || ferror(stdout) ? failed(PROGRAM ": standard output") : status;
}

static void refuse(uint64_t number, uint64_t place)
{
    if (number == LEDGERFERN_OK)
        return;
    printf("refused %" PRIu64 " at %" PRIu64 "\n", number, place);
    exit(ended(1));
}

static void usage(void)
{
    fputs(USAGE, stderr);
    exit(2);
}

/*
 * A whole word of digits: what strtoull takes besides (blanks, signs, a rest) is no number here. It is inline, as
 * print_uri is, so that a program without numbers builds without a warning.
 */
static inline uint64_t number(const char *name, const char *word)
{
    char *end;

    errno = 0;
    unsigned long long value = strtoull(word, &end, 10);
    if (!isdigit((unsigned char)*word) || *end != '\0' || errno != 0) {
        fprintf(stderr, PROGRAM ": %s is a number, and '%s' is none\n", name, word);
        usage();
    }
    return value;
}

/* A table of so many words. It is never NULL, which no call takes, even for a table of none. */
static uint64_t *table(size_t words)
{
    uint64_t *lent = calloc(words + 1, sizeof *lent);

    if (lent == NULL)
        exit(failed(PROGRAM ": memory"));
    return lent;
}

/* Reads standard input into `text`, and its clips into `clips`; how many clips there are. */
static size_t read_list(void)
{
    text_length = fread(text, 1, sizeof text, stdin);
    if (ferror(stdin))
        exit(failed(PROGRAM ": standard input"));

    ledgerfern_room_answer room = ledgerfern_room(text, text_length);
    refuse(room.number, room.place);
    clip_words = room.clips * LEDGERFERN_CLIP_WORDS;
    tag_words = room.tags * LEDGERFERN_TAG_WORDS;
    clips = table(clip_words);
    tags = table(tag_words);

    ledgerfern_read_answer list = ledgerfern_read(text, text_length, clips, clip_words, tags, tag_words);
    refuse(list.number, list.place);
    return list.clips;
}

/* Prints a clip's URI, which may hold a zero byte. */
static inline void print_uri(size_t clip)
{
    const uint64_t *record = clips + clip * LEDGERFERN_CLIP_WORDS;
    uint64_t start = record[LEDGERFERN_URI_START], end = record[LEDGERFERN_URI_END];
    fwrite(text + start, 1, end - start, stdout);
}

#endif
