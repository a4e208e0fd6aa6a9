/*
 * Cases by hand, as C meets them: the clock's calls on document 01's sheet, the window's on reels, the cue file's on
 * the sheet and on the largest lists, and the room that the reader needs. Tables are too short or longer than needed,
 * begin at any word, and hold anything in the words that a call does not read. Prints each number that is wrong, and how
 * many are right; exit status 1 where one is wrong.
 */
#include <inttypes.h>
#include <stdio.h>
#include <string.h>

#include "ledgerfern.h"

enum { CLIPS = 3, CLIP_SIZE = CLIPS * LEDGERFERN_CLIP_WORDS, START_SIZE = CLIPS * LEDGERFERN_START_WORDS };

static const uint64_t lengths[CLIPS] = {9009000000, 4000000, 3003000000};
static uint64_t table[CLIP_SIZE + 2], *const clips = table + 1;
static uint64_t lent[START_SIZE + 3], *const starts = lent + 1;
static int numbers, wrong;

#define SAME(got, wanted) same(__LINE__, #got, got, wanted)

static void same(int line, const char *what, uint64_t got, uint64_t wanted)
{
    numbers++;
    if (got == wanted)
        return;
    wrong++;
    printf("line %d: %s is %" PRIu64 ", and not %" PRIu64 "\n", line, what, got, wanted);
}

static void one_start(void)
{
    SAME(ledgerfern_total(CLIPS, clips, CLIP_SIZE).value, 12016000000);
    SAME(ledgerfern_start_ns(CLIPS, clips, CLIP_SIZE, 0).value, 0);
    SAME(ledgerfern_start_ns(CLIPS, clips, CLIP_SIZE, 1).value, 9009000000);
    SAME(ledgerfern_start_ns(CLIPS, clips, CLIP_SIZE, 2).value, 9013000000);
    SAME(ledgerfern_start_ns(CLIPS, clips, CLIP_SIZE, 3).number, LEDGERFERN_NO_SUCH_CLIP);
    SAME(ledgerfern_start_ns(CLIPS, clips, CLIP_SIZE, SIZE_MAX).number, LEDGERFERN_NO_SUCH_CLIP);
    SAME(ledgerfern_start_ns(2, clips, CLIP_SIZE, 2).number, LEDGERFERN_NO_SUCH_CLIP);
    SAME(ledgerfern_start_ns(CLIPS, clips, CLIP_SIZE - 1, 0).number, LEDGERFERN_BROKEN_TABLE);
    SAME(ledgerfern_start_ns(SIZE_MAX, clips, CLIP_SIZE, 0).number, LEDGERFERN_BROKEN_TABLE);
}

/* All starts into a table that is filled with 7s: the refusal, if it is one, and then no word has changed. */
static ledgerfern_starts_answer fill(size_t count, uint64_t rate, uint64_t turn, size_t size)
{
    for (size_t k = 0; k < sizeof lent / sizeof *lent; k++)
        lent[k] = 7;
    ledgerfern_starts_answer all = ledgerfern_starts(count, clips, CLIP_SIZE, rate, turn, starts, size);
    SAME(all.place, 0);
    SAME(all.clips, all.number == LEDGERFERN_OK ? count : 0);
    for (size_t k = all.clips * LEDGERFERN_START_WORDS; k < START_SIZE + 2; k++)
        SAME(starts[k], 7);
    SAME(lent[0], 7);
    return all;
}

static void all_starts(void)
{
    static const uint64_t turns[][START_SIZE] = {{0, 0, 9009000000, 900, 9013000000, 901},
                                                 {0, 1201, 9009000000, 2102, 9013000000, 2102},
                                                 {0, 2403, 9009000000, 3304, 9013000000, 3304}};

    for (uint64_t turn = 0; turn < 3; turn++)
        for (size_t size = START_SIZE; size < START_SIZE + 3; size++) {
            SAME(fill(CLIPS, 100, turn, size).number, LEDGERFERN_OK);
            for (size_t k = 0; k < START_SIZE; k++)
                SAME(starts[k], turns[turn][k]);
        }
    SAME(fill(2, 100, 0, 4).number, LEDGERFERN_OK);
    SAME(fill(0, 100, 0, 0).number, LEDGERFERN_OK);
    for (size_t size = 0; size < START_SIZE; size++)
        SAME(fill(CLIPS, 100, 0, size).number, LEDGERFERN_OUTPUT_SHORT);
    SAME(fill(CLIPS, 100, LEDGERFERN_TURN_LIMIT + 1, 0).number, LEDGERFERN_TURN_TOO_LATE);
    SAME(fill(CLIPS, 0, LEDGERFERN_TURN_LIMIT + 1, 0).number, LEDGERFERN_BAD_RATE);
    SAME(fill(CLIPS + 1, 0, LEDGERFERN_TURN_LIMIT + 1, 0).number, LEDGERFERN_BROKEN_TABLE);
    SAME(fill(SIZE_MAX, 0, 0, 0).number, LEDGERFERN_BROKEN_TABLE);
}

/* What is on at a tick, by both calls; where it is refused, all other numbers are 0. */
static void on(size_t count, uint64_t rate, uint64_t tick, ledgerfern_playing_answer wanted)
{
    ledgerfern_on_answer pair = ledgerfern_clip_at(count, clips, CLIP_SIZE, rate, tick);
    SAME(pair.number, wanted.number);
    SAME(pair.place, 0);
    SAME(pair.turn, wanted.turn);
    SAME(pair.clip, wanted.clip);
    ledgerfern_playing_answer now = ledgerfern_playing_at(count, clips, CLIP_SIZE, rate, tick);
    SAME(now.number, wanted.number);
    SAME(now.place, 0);
    SAME(now.turn, wanted.turn);
    SAME(now.clip, wanted.clip);
    SAME(now.since, wanted.since);
    SAME(now.left, wanted.left);
}

static ledgerfern_playing_answer playing(uint64_t turn, uint64_t clip, uint64_t since, uint64_t left)
{
    ledgerfern_playing_answer wanted = {LEDGERFERN_OK, 0, turn, clip, since, left};
    return wanted;
}

static ledgerfern_playing_answer refused(uint64_t number)
{
    ledgerfern_playing_answer wanted = {number, 0, 0, 0, 0, 0};
    return wanted;
}

static void what_is_on(void)
{
    on(CLIPS, 100, 0, playing(0, 0, 0, 900));
    on(CLIPS, 100, 899, playing(0, 0, 899, 1));
    on(CLIPS, 100, 900, playing(0, 1, 0, 1));
    on(CLIPS, 100, 901, playing(0, 2, 0, 300));
    on(CLIPS, 100, 1201, playing(1, 0, 0, 901));
    on(CLIPS, 100, 1201599999, playing(LEDGERFERN_TURN_LIMIT, 2, 300, 1));
    on(CLIPS, 100, 1201600000, refused(LEDGERFERN_TICK_TOO_LATE));
    on(CLIPS, 100, UINT64_MAX, refused(LEDGERFERN_TICK_TOO_LATE));
    on(0, 100, UINT64_MAX, refused(LEDGERFERN_NOTHING_PLAYS));
    on(0, LEDGERFERN_RATE_LIMIT + 1, 0, refused(LEDGERFERN_BAD_RATE));
    on(CLIPS + 1, 0, 0, refused(LEDGERFERN_BROKEN_TABLE));
}

/* ---- windows: a text that is neither UTF-8 nor a playlist, and URIs in it */

static const uint8_t text[] = "\xffreel.tsreel.tvreel.tsreel.tsx";

enum { TEXT_LENGTH = sizeof text - 1 };

#define REEL 1, 8
#define OTHER 8, 15
#define AGAIN 15, 22 /* the same bytes as REEL */
#define LONGER 22, 30
#define SHORTER 1, 5

enum { WHOLE = 0, GOES_ON = LEDGERFERN_HAS_RANGE, AT = LEDGERFERN_HAS_RANGE | LEDGERFERN_HAS_RANGE_OFFSET };

/* A clip, as far as the window reads it, and what is answered for it. */
typedef struct {
    uint64_t uri_start, uri_end, flags, length, offset;
    uint64_t number, present, start, end;
} reel_clip;

#define BYTES(start, end) LEDGERFERN_OK, 1, start, end
#define NO_RANGE LEDGERFERN_OK, 0, 0, 0
#define NO_BEGINNING LEDGERFERN_NO_RANGE_BEFORE, 0, 0, 0
#define TOO_FAR LEDGERFERN_WINDOW_TOO_FAR, 0, 0, 0

enum { MOST = 16, REEL_SIZE = MOST * LEDGERFERN_CLIP_WORDS, WINDOW_SIZE = MOST * LEDGERFERN_WINDOW_WORDS };

static uint64_t reel_table[REEL_SIZE + 2], *const reel = reel_table + 1;
static uint64_t window_table[WINDOW_SIZE + 4], *const windows = window_table + 1;
static uint8_t long_text[LEDGERFERN_TEXT_LIMIT + 1];

static void lay(const reel_clip *clip, size_t count)
{
    for (size_t k = 0; k < sizeof reel_table / sizeof *reel_table; k++)
        reel_table[k] = UINT64_MAX;
    for (size_t k = 0; k < count; k++) {
        uint64_t *record = reel + k * LEDGERFERN_CLIP_WORDS;
        record[LEDGERFERN_URI_START] = clip[k].uri_start;
        record[LEDGERFERN_URI_END] = clip[k].uri_end;
        record[LEDGERFERN_FLAGS] = clip[k].flags;
        record[LEDGERFERN_RANGE_LENGTH] = clip[k].length;
        record[LEDGERFERN_RANGE_OFFSET] = clip[k].offset;
    }
}

static void one_window(ledgerfern_window_answer got, uint64_t number, uint64_t present, uint64_t start, uint64_t end)
{
    SAME(got.number, number);
    SAME(got.place, 0);
    SAME(got.present, present);
    SAME(got.start, start);
    SAME(got.end, end);
}

/* All windows into a table that is filled with 7s: the refusal, if it is one, and then no word has changed. */
static uint64_t fill_windows(const uint8_t *from, size_t length, size_t count, size_t clip_words, size_t size)
{
    for (size_t k = 0; k < sizeof window_table / sizeof *window_table; k++)
        window_table[k] = 7;
    ledgerfern_windows_answer all = ledgerfern_windows(from, length, count, reel, clip_words, windows, size);
    SAME(all.place, 0);
    SAME(all.clips, all.number == LEDGERFERN_OK ? count : 0);
    for (size_t k = all.clips * LEDGERFERN_WINDOW_WORDS; k < WINDOW_SIZE + 3; k++)
        SAME(windows[k], 7);
    SAME(window_table[0], 7);
    return all.number;
}

#define WINDOWS(clips) both_calls(#clips, clips, sizeof clips / sizeof *clips)

/* Each clip's window by the call for one, and by the call for all, into a table with no words to spare and with some. */
static void both_calls(const char *name, const reel_clip *clip, size_t count)
{
    int before = wrong;
    size_t clip_words = count * LEDGERFERN_CLIP_WORDS, size = count * LEDGERFERN_WINDOW_WORDS;

    lay(clip, count);
    for (size_t k = 0; k < count; k++)
        one_window(ledgerfern_window(text, TEXT_LENGTH, count, reel, clip_words, k), clip[k].number, clip[k].present,
                   clip[k].start, clip[k].end);
    one_window(ledgerfern_window(text, TEXT_LENGTH, count, reel, clip_words, count), LEDGERFERN_NO_SUCH_CLIP, 0, 0, 0);
    for (size_t more = 0; more < 3; more++) {
        SAME(fill_windows(text, TEXT_LENGTH, count, clip_words, size + more), LEDGERFERN_OK);
        for (size_t k = 0; k < count; k++) {
            const uint64_t *record = windows + k * LEDGERFERN_WINDOW_WORDS;
            SAME(record[LEDGERFERN_WINDOW_NUMBER], clip[k].number);
            SAME(record[LEDGERFERN_WINDOW_PRESENT], clip[k].present);
            SAME(record[LEDGERFERN_WINDOW_START], clip[k].start);
            SAME(record[LEDGERFERN_WINDOW_END], clip[k].end);
        }
    }
    if (wrong > before)
        printf("  all that in the clips of %s\n", name);
}

static void chains(void)
{
    static const reel_clip chain[] = {
        {REEL, AT, 10, 5, BYTES(5, 15)},
        {REEL, GOES_ON, 7, 99, BYTES(15, 22)}, /* an offset that the flags do not tell of is none */
        {AGAIN, GOES_ON, 3, 99, BYTES(22, 25)},
        {REEL, GOES_ON | LEDGERFERN_HAS_DISCONTINUITY | LEDGERFERN_HAS_MAP, 4, 99, BYTES(25, 29)},
        {REEL, GOES_ON, 0, 99, BYTES(29, 29)},
        {REEL, GOES_ON, 1, 99, BYTES(29, 30)},
        {REEL, AT, 6, 0, BYTES(0, 6)},
        {REEL, GOES_ON, 2, 99, BYTES(6, 8)},
        {OTHER, AT, 9, 1, BYTES(1, 10)},
        {OTHER, GOES_ON, 9, 99, BYTES(10, 19)},
    };
    static const reel_clip first[] = {
        {REEL, GOES_ON, 4, 0, NO_BEGINNING},
        {REEL, GOES_ON, 5, 0, NO_BEGINNING},
        {REEL, WHOLE, 5, 0, NO_RANGE},
        {REEL, AT, 5, 7, BYTES(7, 12)},
        {REEL, GOES_ON, 1, 0, BYTES(12, 13)},
    };
    static const reel_clip between[] = {
        {REEL, AT, 5, 7, BYTES(7, 12)},
        {REEL, WHOLE, 6, 8, NO_RANGE},
        {REEL, GOES_ON, 1, 0, NO_BEGINNING},
        {REEL, AT, 5, 7, BYTES(7, 12)},
        {REEL, LEDGERFERN_HAS_RANGE_OFFSET, 6, 8, NO_RANGE}, /* an offset without a range is none */
        {REEL, GOES_ON, 1, 0, NO_BEGINNING},
        {REEL, AT, 5, 7, BYTES(7, 12)},
        {OTHER, GOES_ON, 1, 0, NO_BEGINNING},
        {REEL, GOES_ON, 1, 0, NO_BEGINNING},
        {REEL, AT, 5, 7, BYTES(7, 12)},
        {OTHER, AT, 5, 7, BYTES(7, 12)},
        {REEL, GOES_ON, 1, 0, NO_BEGINNING},
    };
    static const reel_clip alike[] = {
        {REEL, AT, 5, 7, BYTES(7, 12)},
        {LONGER, GOES_ON, 1, 0, NO_BEGINNING},
        {LONGER, AT, 5, 7, BYTES(7, 12)},
        {REEL, GOES_ON, 1, 0, NO_BEGINNING},
        {REEL, AT, 5, 7, BYTES(7, 12)},
        {SHORTER, GOES_ON, 1, 0, NO_BEGINNING},
        {0, 0, AT, 5, 7, BYTES(7, 12)}, /* empty URIs are the same, wherever they stand */
        {5, 5, GOES_ON, 1, 0, BYTES(12, 13)},
        {TEXT_LENGTH, TEXT_LENGTH, GOES_ON, 1, 0, BYTES(13, 14)},
        {REEL, GOES_ON, 1, 0, NO_BEGINNING},
    };
    WINDOWS(chain);
    WINDOWS(first);
    WINDOWS(between);
    WINDOWS(alike);
}

/* Ends around 2^64 - 1. Behind an end that is too far all of the chain is too far; without a beginning nothing is. */
static void far_ends(void)
{
    static const reel_clip last[] = {
        {REEL, AT, 1, UINT64_MAX - 1, BYTES(UINT64_MAX - 1, UINT64_MAX)},
        {REEL, GOES_ON, 0, 0, BYTES(UINT64_MAX, UINT64_MAX)},
        {REEL, GOES_ON, 1, 0, TOO_FAR},
        {REEL, GOES_ON, 0, 0, TOO_FAR},
        {REEL, GOES_ON, UINT64_MAX, 0, TOO_FAR},
        {OTHER, GOES_ON, 0, 0, NO_BEGINNING},
        {OTHER, GOES_ON, UINT64_MAX, 0, NO_BEGINNING},
        {OTHER, GOES_ON, UINT64_MAX, 0, NO_BEGINNING},
        {OTHER, AT, UINT64_MAX, 1, TOO_FAR},
        {OTHER, AT, 0, UINT64_MAX, BYTES(UINT64_MAX, UINT64_MAX)},
        {OTHER, AT, UINT64_MAX, 0, BYTES(0, UINT64_MAX)},
        {OTHER, GOES_ON, 1, 0, TOO_FAR},
        {OTHER, WHOLE, UINT64_MAX, UINT64_MAX, NO_RANGE},
    };
    WINDOWS(last);
}

/* Both calls are refused by this number, whichever clip is asked for, and however long the table of windows is. */
static void refused_by(uint64_t number, const uint8_t *from, size_t length, size_t count, size_t clip_words)
{
    static const size_t asked[] = {0, 1, 2, 3, SIZE_MAX};

    for (size_t k = 0; k < sizeof asked / sizeof *asked; k++)
        one_window(ledgerfern_window(from, length, count, reel, clip_words, asked[k]), number, 0, 0, 0);
    for (size_t size = 0; size <= WINDOW_SIZE; size += WINDOW_SIZE)
        SAME(fill_windows(from, length, count, clip_words, size), number);
}

/* A word of the last of three clips breaks the rule: both calls see it, whichever clip is asked for. */
static void broken_by(size_t place, uint64_t word)
{
    static const reel_clip fine[] = {
        {REEL, AT, 10, 5, BYTES(5, 15)},
        {REEL, GOES_ON, 7, 0, BYTES(15, 22)},
        {REEL, WHOLE, 0, 0, NO_RANGE},
    };
    enum { TWO = 2 * LEDGERFERN_CLIP_WORDS, THREE = 3 * LEDGERFERN_CLIP_WORDS };

    lay(fine, 3);
    SAME(fill_windows(text, TEXT_LENGTH, 3, THREE, WINDOW_SIZE), LEDGERFERN_OK);
    reel[TWO + place] = word;
    refused_by(LEDGERFERN_BROKEN_TABLE, text, TEXT_LENGTH, 3, THREE);
    /* Records past the count are not looked at. */
    one_window(ledgerfern_window(text, TEXT_LENGTH, 2, reel, THREE, 1), BYTES(15, 22));
    SAME(fill_windows(text, TEXT_LENGTH, 2, THREE, WINDOW_SIZE), LEDGERFERN_OK);
}

/* 1, 9, 14, 16, 15: each before those behind it. */
static void windows_refused(void)
{
    static const reel_clip undefined[] = {
        {REEL, AT, UINT64_MAX, 1, TOO_FAR},
        {OTHER, GOES_ON, UINT64_MAX, 0, NO_BEGINNING},
        {OTHER, WHOLE, 0, 0, NO_RANGE},
    };
    enum { THREE = 3 * LEDGERFERN_CLIP_WORDS };

    WINDOWS(undefined);
    for (size_t length = LEDGERFERN_TEXT_LIMIT; length <= LEDGERFERN_TEXT_LIMIT + 1; length++) {
        uint64_t number = length > LEDGERFERN_TEXT_LIMIT ? LEDGERFERN_TEXT_TOO_LONG : LEDGERFERN_BROKEN_TABLE;
        refused_by(number, long_text, length, 3, THREE - 1);
        refused_by(number, long_text, length, SIZE_MAX, THREE);
        refused_by(number, long_text, length, SIZE_MAX / LEDGERFERN_CLIP_WORDS + 1, THREE); /* x 17 is 16 in 64 bits */
    }
    refused_by(LEDGERFERN_TEXT_TOO_LONG, long_text, LEDGERFERN_TEXT_LIMIT + 1, 3, THREE);
    refused_by(LEDGERFERN_BROKEN_TABLE, text, 14, 3, THREE); /* OTHER ends at 15 */
    one_window(ledgerfern_window(text, 15, 3, reel, THREE, 0), TOO_FAR);
    one_window(ledgerfern_window(text, 15, 3, reel, THREE, 1), NO_BEGINNING);
    one_window(ledgerfern_window(text, 15, 3, reel, THREE, SIZE_MAX), LEDGERFERN_NO_SUCH_CLIP, 0, 0, 0);
    one_window(ledgerfern_window(text, 0, 0, reel, 0, 0), LEDGERFERN_NO_SUCH_CLIP, 0, 0, 0);
    SAME(fill_windows(text, 0, 0, 0, 0), LEDGERFERN_OK);
    for (size_t size = 0; size < 3 * LEDGERFERN_WINDOW_WORDS; size++)
        SAME(fill_windows(text, TEXT_LENGTH, 3, THREE, size), LEDGERFERN_OUTPUT_SHORT);

    broken_by(LEDGERFERN_FLAGS, LEDGERFERN_FLAG_LIMIT);
    broken_by(LEDGERFERN_FLAGS, UINT64_MAX);
    broken_by(LEDGERFERN_URI_START, 9); /* and its end is 8 */
    broken_by(LEDGERFERN_URI_START, UINT64_MAX);
    broken_by(LEDGERFERN_URI_END, 0);
    broken_by(LEDGERFERN_URI_END, TEXT_LENGTH + 1);
    broken_by(LEDGERFERN_URI_END, UINT64_MAX);
}

/* A URI may be the whole of the longest text. */
static void long_uris(void)
{
    static const reel_clip whole[] = {
        {0, LEDGERFERN_TEXT_LIMIT, AT, 2, 3, BYTES(3, 5)},
        {0, LEDGERFERN_TEXT_LIMIT, GOES_ON, 4, 0, BYTES(5, 9)},
        {1, LEDGERFERN_TEXT_LIMIT, GOES_ON, 4, 0, NO_BEGINNING},
    };

    lay(whole, 3);
    for (size_t k = 0; k < 3; k++)
        one_window(ledgerfern_window(long_text, LEDGERFERN_TEXT_LIMIT, 3, reel, REEL_SIZE, k), whole[k].number,
                   whole[k].present, whole[k].start, whole[k].end);
}

/* What is read can be asked for its windows, with the text that was read. */
static void read_and_asked(void)
{
    static const char list[] = "#EXTM3U\n#EXT-X-VERSION:4\n#EXT-X-TARGETDURATION:2\n"
                               "#EXTINF:2.000000,\n#EXT-X-BYTERANGE:94752@0\nreel.ts\n"
                               "#EXTINF:2.000000,\n#EXT-X-BYTERANGE:96068\nreel.ts\n"
                               "#EXTINF:2.000000,\n#EXT-X-BYTERANGE:95128\nreel.ts\n#EXT-X-ENDLIST\n";
    static const uint64_t wanted[] = {0, 1, 0, 94752, 0, 1, 94752, 190820, 0, 1, 190820, 285948};
    uint64_t tags[LEDGERFERN_TAG_WORDS];
    const uint8_t *from = (const uint8_t *)list;
    size_t length = strlen(list);

    ledgerfern_read_answer answer = ledgerfern_read(from, length, reel, REEL_SIZE, tags, LEDGERFERN_TAG_WORDS);
    SAME(answer.number, LEDGERFERN_OK);
    SAME(answer.clips, 3);
    SAME(fill_windows(from, length, answer.clips, REEL_SIZE, WINDOW_SIZE), LEDGERFERN_OK);
    for (size_t k = 0; k < sizeof wanted / sizeof *wanted; k++)
        SAME(windows[k], wanted[k]);
}

/* ---- the cue file: tables of up to 65,536 clips, and an output for the longest file that is written here */

enum {
    MOST_CUES = 65535, /* clips in a file, and bytes of a URI */
    CUE_SIZE = (MOST_CUES + 1) * LEDGERFERN_CLIP_WORDS,
    FILE_SIZE = LEDGERFERN_CUE_FILE_BYTES(MOST_CUES, MOST_CUES)
};

static uint64_t cue_table[CUE_SIZE + 2], *const cue_clips = cue_table + 1;
static uint8_t lent_file[FILE_SIZE + 4], *const file = lent_file + 1;

static const uint8_t sheet[] = "#EXTM3U\n#EXTINF:9.009,bird\na.ts\n#EXTINF:0.004,\nb.ts\n#EXTINF:3.003,\nc.ts\n";

enum { SHEET_LENGTH = sizeof sheet - 1 };

/* The sheet's file, by 02's sentence: its clips start at 0, 9.009 and 9.013 s. */
static const uint8_t sheet_file[] = {
    0, 0, 0, 0, 0, 0, 0, 0, 0, 4,          /* 0 s, 0 ns, a URI of four bytes */
    0, 0, 0, 9, 0, 0x89, 0x54, 0x40, 0, 4, /* 9 s, 9,000,000 ns */
    0, 0, 0, 9, 0, 0xC6, 0x5D, 0x40, 0, 4, /* 9 s, 13,000,000 ns */
    'a', '.', 't', 's', 'b', '.', 't', 's', 'c', '.', 't', 's',
    0, 0, 0, 0, 0, 0, 0, 30, /* the records are at 0, the URIs at 30 */
    0, 3, 0, 1,              /* three clips, version 1 */
};

enum { SHEET_FILE = sizeof sheet_file };

/* Lays a clip down. The words that are not read keep whatever they hold. */
static void lay_cue(size_t clip, uint64_t uri_start, uint64_t uri_end, uint64_t length)
{
    uint64_t *record = cue_clips + clip * LEDGERFERN_CLIP_WORDS;

    record[LEDGERFERN_URI_START] = uri_start;
    record[LEDGERFERN_URI_END] = uri_end;
    record[LEDGERFERN_LENGTH] = length;
}

static void lay_sheet(void)
{
    lay_cue(0, 27, 31, lengths[0]);
    lay_cue(1, 47, 51, lengths[1]);
    lay_cue(2, 67, 71, lengths[2]);
}

/* Writes a file into bytes that are all 7: the refusal, if it is one, and then every byte is still 7. */
static ledgerfern_written_answer write_file(const uint8_t *from, size_t length, size_t count, size_t clip_words,
                                            size_t size)
{
    size_t changed = 0;

    memset(lent_file, 7, sizeof lent_file);
    ledgerfern_written_answer answer = ledgerfern_cue_write(from, length, count, cue_clips, clip_words, file, size);
    SAME(answer.place, 0);
    if (answer.number != LEDGERFERN_OK)
        SAME(answer.length, 0);
    for (size_t k = answer.length; k < FILE_SIZE + 3; k++)
        changed += file[k] != 7;
    SAME(changed, 0);
    SAME(lent_file[0], 7);
    return answer;
}

/* The same from the longest text, and with the whole table. */
static ledgerfern_written_answer write_long(size_t count, size_t size)
{
    return write_file(long_text, LEDGERFERN_TEXT_LIMIT, count, CUE_SIZE, size);
}

/* How many bytes of the output are not these. */
static size_t apart(const uint8_t *wanted, size_t length)
{
    size_t count = 0;

    for (size_t k = 0; k < length; k++)
        count += file[k] != wanted[k];
    return count;
}

/* The number in so many bytes of the output, high byte first. */
static uint64_t field(size_t at, size_t width)
{
    uint64_t value = 0;

    for (size_t k = at; k < at + width; k++)
        value = value * 256 + file[k];
    return value;
}

/* A trailer of so many clips at a place of the output. */
static void trailer(size_t at, uint64_t count)
{
    SAME(field(at, 4), 0);
    SAME(field(at + 4, 4), 10 * count);
    SAME(field(at + 8, 2), count);
    SAME(field(at + 10, 2), 1);
}

static void one_cue(ledgerfern_cue_answer got, uint64_t number, uint64_t start, uint64_t uri_start, uint64_t uri_end,
                    uint64_t clip_count)
{
    SAME(got.number, number);
    SAME(got.place, 0);
    SAME(got.start, start);
    SAME(got.uri_start, uri_start);
    SAME(got.uri_end, uri_end);
    SAME(got.clips, clip_count);
}

/* A file is refused by this number, whichever clip is asked for. */
static void bad_file(uint64_t number, const uint8_t *from, size_t length)
{
    static const size_t asked[] = {0, 1, 2, 3, SIZE_MAX};

    for (size_t k = 0; k < sizeof asked / sizeof *asked; k++)
        one_cue(ledgerfern_cue_read(from, length, asked[k]), number, 0, 0, 0, 0);
}

static void sheet_written(void)
{
    static const uint8_t none[] = {0, 0, 0, 0, 0, 0, 0, 0, 0, 0, 0, 1};

    lay_sheet();
    for (size_t size = 0; size < SHEET_FILE + 3; size++) {
        ledgerfern_written_answer answer = write_file(sheet, SHEET_LENGTH, 3, 3 * LEDGERFERN_CLIP_WORDS, size);
        SAME(answer.number, size < SHEET_FILE ? LEDGERFERN_OUTPUT_SHORT : LEDGERFERN_OK);
        SAME(answer.length, size < SHEET_FILE ? 0 : SHEET_FILE);
        if (size >= SHEET_FILE)
            SAME(apart(sheet_file, SHEET_FILE), 0);
    }
    SAME(LEDGERFERN_CUE_FILE_BYTES(3, 12), SHEET_FILE);

    /* The last length is in no file; records past the count are not looked at. */
    lay_cue(2, 67, 71, 0);
    SAME(write_file(sheet, SHEET_LENGTH, 3, CUE_SIZE, FILE_SIZE).length, SHEET_FILE);
    SAME(apart(sheet_file, SHEET_FILE), 0);

    /* No clips: twelve bytes, whatever the text. */
    SAME(write_file(sheet, 0, 0, 0, 11).number, LEDGERFERN_OUTPUT_SHORT);
    SAME(write_file(sheet, 0, 0, 0, 12).length, 12);
    SAME(apart(none, 12), 0);
    bad_file(LEDGERFERN_NO_SUCH_CLIP, none, 12);
}

/* URIs of any bytes that overlap, begin at 0, end with the text, and are empty. */
static void uris_of_a_file(void)
{
    static const uint8_t any[] = {'a', 0, 0xFF, '\n'};
    static const uint8_t wanted[] = {
        0, 0, 0, 0, 0, 0, 0, 0, 0, 3,             /* 0 s */
        0, 0, 0, 0, 0x3B, 0x9A, 0xC9, 0xFF, 0, 3, /* 999,999,999 ns */
        0, 0, 0, 1, 0, 0, 0, 0, 0, 0,             /* 1 s */
        0, 0, 0, 1, 0, 0, 0, 0, 0, 4,             /* 1 s */
        0, 0, 1, 1, 0, 0, 0, 0, 0, 0,             /* 257 s */
        'a', 0, 0xFF, 0, 0xFF, '\n', 'a', 0, 0xFF, '\n',
        0, 0, 0, 0, 0, 0, 0, 50, 0, 5, 0, 1,
    };

    lay_cue(0, 0, 3, 999999999);
    lay_cue(1, 1, 4, 1);
    lay_cue(2, 4, 4, 0);
    lay_cue(3, 0, 4, 256 * LEDGERFERN_SECOND);
    lay_cue(4, 0, 0, 7);
    SAME(write_file(any, sizeof any, 5, CUE_SIZE, FILE_SIZE).length, sizeof wanted);
    SAME(apart(wanted, sizeof wanted), 0);
    one_cue(ledgerfern_cue_read(file, sizeof wanted, 0), LEDGERFERN_OK, 0, 50, 53, 5);
    one_cue(ledgerfern_cue_read(file, sizeof wanted, 1), LEDGERFERN_OK, 999999999, 53, 56, 5);
    one_cue(ledgerfern_cue_read(file, sizeof wanted, 2), LEDGERFERN_OK, 1000000000, 56, 56, 5);
    one_cue(ledgerfern_cue_read(file, sizeof wanted, 3), LEDGERFERN_OK, 1000000000, 56, 60, 5);
    one_cue(ledgerfern_cue_read(file, sizeof wanted, 4), LEDGERFERN_OK, 257000000000, 60, 60, 5);
    one_cue(ledgerfern_cue_read(file, sizeof wanted, 5), LEDGERFERN_NO_SUCH_CLIP, 0, 0, 0, 0);
}

/* 65,535 clips of a byte each, which together last nearly as long as they may: the last starts close to 10^15 ns. */
static void most_clips(void)
{
    const uint64_t length = LEDGERFERN_TOTAL_LIMIT / MOST_CUES;
    size_t wrong_starts = 0, wrong_lengths = 0;

    for (size_t k = 0; k <= MOST_CUES; k++)
        lay_cue(k, k, k + 1, length);
    SAME(write_long(MOST_CUES, FILE_SIZE - 1).number, LEDGERFERN_OUTPUT_SHORT);
    SAME(write_long(MOST_CUES, FILE_SIZE).length, FILE_SIZE);
    for (size_t k = 0; k < MOST_CUES; k++) {
        wrong_starts += field(10 * k, 4) * LEDGERFERN_SECOND + field(10 * k + 4, 4) != k * length;
        wrong_starts += field(10 * k + 4, 4) >= LEDGERFERN_SECOND;
        wrong_lengths += field(10 * k + 8, 2) != 1;
    }
    SAME(wrong_starts, 0);
    SAME(wrong_lengths, 0);
    SAME(memcmp(file + 10 * MOST_CUES, long_text, MOST_CUES), 0);
    trailer(FILE_SIZE - 12, MOST_CUES);
    for (size_t k = 0; k < MOST_CUES; k += 16383) /* 0 and 65,532 among them */
        one_cue(ledgerfern_cue_read(file, FILE_SIZE, k), LEDGERFERN_OK, k * length, 655350 + k, 655351 + k, MOST_CUES);
    one_cue(ledgerfern_cue_read(file, FILE_SIZE, 65534), LEDGERFERN_OK, 65534 * length, 720884, 720885, MOST_CUES);
    one_cue(ledgerfern_cue_read(file, FILE_SIZE, 65535), LEDGERFERN_NO_SUCH_CLIP, 0, 0, 0, 0);

    /* One clip more passes the total, which comes first, and then the count's field. */
    SAME(write_long(MOST_CUES + 1, FILE_SIZE).number, LEDGERFERN_TOTAL_TOO_LONG);
    lay_cue(MOST_CUES, 0, 0, 0);
    SAME(write_long(MOST_CUES + 1, FILE_SIZE).number, LEDGERFERN_TOO_WIDE);
    SAME(write_long(MOST_CUES + 1, 0).number, LEDGERFERN_TOO_WIDE);

    /* The last record is judged whichever clip is asked for; lengths of 4 GiB do not fit. */
    SAME(write_long(MOST_CUES, FILE_SIZE).length, FILE_SIZE);
    file[10 * 65534] = 1; /* 16,777,216 s */
    bad_file(LEDGERFERN_BAD_START, file, FILE_SIZE);
    for (size_t k = 0; k < MOST_CUES; k++)
        file[10 * k + 8] = file[10 * k + 9] = 0xFF;
    bad_file(LEDGERFERN_NOT_EXACT, file, FILE_SIZE);
}

/* 65,535 clips without a URI, and one more. */
static void most_without_uris(void)
{
    size_t others = 0;

    for (size_t k = 0; k <= MOST_CUES; k++)
        lay_cue(k, 0, 0, 0);
    SAME(write_long(MOST_CUES, 655361).number, LEDGERFERN_OUTPUT_SHORT);
    SAME(write_long(MOST_CUES + 1, FILE_SIZE).number, LEDGERFERN_TOO_WIDE);
    SAME(write_file(long_text, 0, MOST_CUES, CUE_SIZE, 655362).length, 655362);
    for (size_t k = 0; k < 655350; k++)
        others += file[k] != 0;
    SAME(others, 0);
    trailer(655350, MOST_CUES);
    one_cue(ledgerfern_cue_read(file, 655362, 65534), LEDGERFERN_OK, 0, 655350, 655350, MOST_CUES);
}

/* A URI of 65,535 bytes, twice, and of one more. */
static void longest_uris(void)
{
    lay_cue(0, 0, MOST_CUES, 1);
    lay_cue(1, 1, MOST_CUES + 1, 1);
    SAME(write_long(2, 131101).number, LEDGERFERN_OUTPUT_SHORT);
    SAME(write_long(2, FILE_SIZE).length, 131102);
    SAME(field(8, 2), 65535);
    SAME(field(18, 2), 65535);
    SAME(memcmp(file + 20, long_text, MOST_CUES), 0);
    SAME(memcmp(file + 20 + MOST_CUES, long_text + 1, MOST_CUES), 0);
    trailer(131090, 2);
    one_cue(ledgerfern_cue_read(file, 131102, 0), LEDGERFERN_OK, 0, 20, 65555, 2);
    one_cue(ledgerfern_cue_read(file, 131102, 1), LEDGERFERN_OK, 1, 65555, 131090, 2);

    lay_cue(1, 0, MOST_CUES + 1, 1);
    SAME(write_long(2, FILE_SIZE).number, LEDGERFERN_TOO_WIDE);
    SAME(write_long(2, 0).number, LEDGERFERN_TOO_WIDE);
    SAME(write_long(1, FILE_SIZE).length, 65557);

    /* All clips with the longest URI: a file of more than 4 GiB, for which there is no room. */
    for (size_t k = 0; k < MOST_CUES; k++)
        lay_cue(k, 0, MOST_CUES, 0);
    SAME(write_long(MOST_CUES, FILE_SIZE).number, LEDGERFERN_OUTPUT_SHORT);
}

/* 1, 9, 11, 33, 10: each before those behind it. */
static void writing_refused(void)
{
    static const size_t sizes[] = {0, 54, FILE_SIZE};
    enum { THREE = 3 * LEDGERFERN_CLIP_WORDS, ALL = LEDGERFERN_TEXT_LIMIT };

    for (size_t k = 0; k < sizeof sizes / sizeof *sizes; k++) {
        size_t size = sizes[k];
        lay_cue(0, 0, ALL, LEDGERFERN_LENGTH_LIMIT);
        lay_cue(1, 0, 0, LEDGERFERN_TOTAL_LIMIT);
        lay_cue(2, 0, 0, 1);
        SAME(write_file(long_text, ALL + 1, 3, THREE, size).number, LEDGERFERN_TEXT_TOO_LONG);
        SAME(write_file(long_text, ALL + 1, SIZE_MAX, THREE, size).number, LEDGERFERN_TEXT_TOO_LONG);
        SAME(write_file(long_text, ALL, 3, THREE, size).number, LEDGERFERN_BROKEN_TABLE);
        lay_cue(0, 0, ALL, LEDGERFERN_LENGTH_LIMIT - 1);
        SAME(write_file(long_text, ALL - 1, 3, THREE, size).number, LEDGERFERN_BROKEN_TABLE); /* clip 0 ends at ALL */
        SAME(write_file(long_text, ALL, 3, THREE - 1, size).number, LEDGERFERN_BROKEN_TABLE);
        SAME(write_file(long_text, ALL, SIZE_MAX, THREE, size).number, LEDGERFERN_BROKEN_TABLE);
        SAME(write_file(long_text, ALL, SIZE_MAX / LEDGERFERN_CLIP_WORDS + 1, THREE, size).number,
             LEDGERFERN_BROKEN_TABLE); /* x 17 is 16 in 64 bits */
        SAME(write_file(long_text, ALL, 3, THREE, size).number, LEDGERFERN_TOTAL_TOO_LONG);
        lay_cue(0, 0, ALL, 0);
        SAME(write_file(long_text, ALL, 3, THREE, size).number, LEDGERFERN_TOTAL_TOO_LONG); /* by the last length */
        lay_cue(2, 0, 0, 0);
        SAME(write_file(long_text, ALL, 3, THREE, size).number, LEDGERFERN_TOO_WIDE);
        lay_cue(0, 0, ALL - 1, 0);
        SAME(write_file(long_text, ALL, 3, THREE, size).number,
             size < FILE_SIZE ? LEDGERFERN_OUTPUT_SHORT : LEDGERFERN_OK);
    }
    one_cue(ledgerfern_cue_read(file, 65577, 2), LEDGERFERN_OK, LEDGERFERN_TOTAL_LIMIT, 65565, 65565, 3);

    /* The last of three clips breaks the rule by its URI. */
    static const uint64_t spans[][2] = {
        {9, 8}, {UINT64_MAX, 8}, {0, SHEET_LENGTH + 1}, {0, UINT64_MAX}, {SHEET_LENGTH + 1, SHEET_LENGTH + 1}};
    lay_sheet();
    for (size_t k = 0; k < sizeof spans / sizeof *spans; k++) {
        lay_cue(2, spans[k][0], spans[k][1], 0);
        SAME(write_file(sheet, SHEET_LENGTH, 3, THREE, FILE_SIZE).number, LEDGERFERN_BROKEN_TABLE);
        SAME(write_file(sheet, SHEET_LENGTH, 2, THREE, FILE_SIZE).number, LEDGERFERN_OK);
    }

    /* Lengths that are 2^64 together, which 64 bits would show as 0; and far more. */
    for (size_t k = 0; k <= MOST_CUES; k++)
        lay_cue(k, 0, 0, LEDGERFERN_LENGTH_LIMIT - 1);
    SAME(write_file(sheet, SHEET_LENGTH, MOST_CUES + 1, CUE_SIZE, FILE_SIZE).number, LEDGERFERN_TOTAL_TOO_LONG);
    lay_cue(18, 0, 0, UINT64_MAX - 18 * (LEDGERFERN_LENGTH_LIMIT - 1) + 1);
    SAME(write_file(sheet, SHEET_LENGTH, 19, CUE_SIZE, FILE_SIZE).number, LEDGERFERN_TOTAL_TOO_LONG);
}

/*
 * Each byte of the sheet's file, changed to each other value: within these limits it is still a file, and else it is
 * refused by this number. Clip 1 may start up to 9.013 s, clip 2 from 9.009 to 1,000,000 s.
 */
static void each_byte(void)
{
    static const struct {
        size_t first, last;
        unsigned least, most;
        uint64_t number;
    } bytes[] = {
        {0, 7, 0, 0, LEDGERFERN_BAD_START},
        {8, 8, 0, 0, LEDGERFERN_NOT_EXACT},
        {9, 9, 4, 4, LEDGERFERN_NOT_EXACT},
        {10, 12, 0, 0, LEDGERFERN_BAD_START},
        {13, 13, 0, 9, LEDGERFERN_BAD_START},
        {14, 14, 0, 0, LEDGERFERN_BAD_START},
        {15, 15, 0, 198, LEDGERFERN_BAD_START}, /* 198 x 65,536 + 0x5440 is 12,997,696, and 65,536 more are too many */
        {16, 17, 0, 255, LEDGERFERN_OK},
        {18, 18, 0, 0, LEDGERFERN_NOT_EXACT},
        {19, 19, 4, 4, LEDGERFERN_NOT_EXACT},
        {20, 20, 0, 0, LEDGERFERN_BAD_START},
        {21, 21, 0, 15, LEDGERFERN_BAD_START}, /* 16 x 65,536 is above 1,000,000 */
        {22, 22, 0, 255, LEDGERFERN_OK},
        {23, 23, 9, 255, LEDGERFERN_BAD_START},
        {24, 24, 0, 58, LEDGERFERN_BAD_START},    /* 58 x 2^24 + 13,000,000 is below 10^9 */
        {25, 25, 137, 255, LEDGERFERN_BAD_START}, /* 137 x 65,536 + 0x5D40 is 9,002,304 */
        {26, 27, 0, 255, LEDGERFERN_OK},
        {28, 28, 0, 0, LEDGERFERN_NOT_EXACT},
        {29, 29, 4, 4, LEDGERFERN_NOT_EXACT},
        {30, 41, 0, 255, LEDGERFERN_OK},
        {42, 48, 0, 0, LEDGERFERN_NOT_EXACT},
        {49, 49, 30, 30, LEDGERFERN_NOT_EXACT},
        {50, 50, 0, 0, LEDGERFERN_NOT_EXACT},
        {51, 51, 3, 3, LEDGERFERN_NOT_EXACT},
        {52, 52, 0, 0, LEDGERFERN_OTHER_VERSION},
        {53, 53, 1, 1, LEDGERFERN_OTHER_VERSION},
    };
    size_t tried = 0;

    for (size_t k = 0; k < sizeof bytes / sizeof *bytes; k++)
        for (size_t at = bytes[k].first; at <= bytes[k].last; at++, tried++)
            for (unsigned value = 0; value < 256; value++) {
                memcpy(file, sheet_file, SHEET_FILE);
                file[at] = value;
                if (value < bytes[k].least || value > bytes[k].most)
                    bad_file(bytes[k].number, file, SHEET_FILE);
                else
                    one_cue(ledgerfern_cue_read(file, SHEET_FILE, 2), LEDGERFERN_OK,
                            field(20, 4) * LEDGERFERN_SECOND + field(24, 4), 38, 42, 3);
            }
    SAME(tried, SHEET_FILE);
}

/* A file that is cut, or longer; 20 before 21 before 22 before 14; files that claim more than they have. */
static void reading_refused(void)
{
    one_cue(ledgerfern_cue_read(sheet_file, SHEET_FILE, 0), LEDGERFERN_OK, 0, 30, 34, 3);
    one_cue(ledgerfern_cue_read(sheet_file, SHEET_FILE, 1), LEDGERFERN_OK, 9009000000, 34, 38, 3);
    one_cue(ledgerfern_cue_read(sheet_file, SHEET_FILE, 2), LEDGERFERN_OK, 9013000000, 38, 42, 3);
    one_cue(ledgerfern_cue_read(sheet_file, SHEET_FILE, 3), LEDGERFERN_NO_SUCH_CLIP, 0, 0, 0, 0);
    one_cue(ledgerfern_cue_read(sheet_file, SHEET_FILE, SIZE_MAX), LEDGERFERN_NO_SUCH_CLIP, 0, 0, 0, 0);

    /* The last bytes alone: under twelve are too short, and more lack their records. */
    for (size_t length = 0; length < SHEET_FILE; length++) {
        uint64_t number = length < 12 ? LEDGERFERN_FILE_TOO_SHORT : LEDGERFERN_NOT_EXACT;
        bad_file(number, sheet_file + SHEET_FILE - length, length);
    }

    /* A byte more in front, between records and URIs, and before the trailer. */
    static const size_t places[] = {0, 30, 42};
    for (size_t k = 0; k < sizeof places / sizeof *places; k++) {
        memcpy(file, sheet_file, places[k]);
        file[places[k]] = 0;
        memcpy(file + places[k] + 1, sheet_file + places[k], SHEET_FILE - places[k]);
        bad_file(LEDGERFERN_NOT_EXACT, file, SHEET_FILE + 1);
    }

    static const size_t exact[] = {45, 49, 51, 29}; /* the places, the count, the last length: each is 21 alone */
    for (size_t k = 0; k < sizeof exact / sizeof *exact; k++) {
        memcpy(file, sheet_file, SHEET_FILE);
        file[7] = 1; /* 22 */
        file[exact[k]]++;
        file[53] = 2; /* 20 */
        bad_file(LEDGERFERN_OTHER_VERSION, file, SHEET_FILE);
        file[53] = 1;
        bad_file(LEDGERFERN_NOT_EXACT, file, SHEET_FILE);
        file[exact[k]]--;
        bad_file(LEDGERFERN_BAD_START, file, SHEET_FILE);
    }

    /* Lengths that fit together are taken, though each is another; a clip that is not asked for is judged too. */
    memcpy(file, sheet_file, SHEET_FILE);
    file[9] = 0;
    file[29] = 8;
    one_cue(ledgerfern_cue_read(file, SHEET_FILE, 0), LEDGERFERN_OK, 0, 30, 30, 3);
    one_cue(ledgerfern_cue_read(file, SHEET_FILE, 1), LEDGERFERN_OK, 9009000000, 30, 34, 3);
    one_cue(ledgerfern_cue_read(file, SHEET_FILE, 2), LEDGERFERN_OK, 9013000000, 34, 42, 3);

    /* Two clips, the second at exactly 1,000,000 s, and a ns later. */
    static const uint8_t latest[] = {0, 0, 0, 0, 0, 0, 0, 0, 0, 0, 0, 0x0F, 0x42, 0x40, 0, 0, 0, 0, 0, 0,
                                     0, 0, 0, 0, 0, 0, 0, 20, 0, 2, 0, 1};
    one_cue(ledgerfern_cue_read(latest, sizeof latest, 1), LEDGERFERN_OK, LEDGERFERN_TOTAL_LIMIT, 20, 20, 2);
    memcpy(file, latest, sizeof latest);
    file[17] = 1;
    bad_file(LEDGERFERN_BAD_START, file, sizeof latest);

    /* A trailer of 65,535 clips, alone. */
    static const uint8_t alone[] = {0, 0, 0, 0, 0, 0x09, 0xFF, 0xF6, 0xFF, 0xFF, 0, 1};
    bad_file(LEDGERFERN_NOT_EXACT, alone, sizeof alone);
}

/* What is read can be written as a file, with the text that was read; the room for it is enough for any such list. */
static void read_and_written(void)
{
    static uint64_t tags[LEDGERFERN_TAG_WORDS];
    ledgerfern_read_answer list =
        ledgerfern_read(sheet, SHEET_LENGTH, cue_clips, CUE_SIZE, tags, LEDGERFERN_TAG_WORDS);
    SAME(list.number, LEDGERFERN_OK);
    SAME(write_file(sheet, SHEET_LENGTH, list.clips, CUE_SIZE, LEDGERFERN_MOST_CUE_FILE_BYTES).length, SHEET_FILE);
    SAME(apart(sheet_file, SHEET_FILE), 0);

    /* The text with the most clips, whose file is the longest of all that are read: 32,765 URIs of a byte. */
    memcpy(long_text, "#EXTM3U", 7);
    for (size_t k = 7; k < LEDGERFERN_TEXT_LIMIT; k++)
        long_text[k] = k % 2 == 1 ? 'a' : '\n';
    list = ledgerfern_read(long_text, LEDGERFERN_TEXT_LIMIT, cue_clips, CUE_SIZE, tags, LEDGERFERN_TAG_WORDS);
    SAME(list.clips, LEDGERFERN_MOST_CLIPS);
    SAME(write_long(list.clips, LEDGERFERN_MOST_CUE_FILE_BYTES).length,
         LEDGERFERN_CUE_FILE_BYTES(LEDGERFERN_MOST_CLIPS, LEDGERFERN_MOST_CLIPS));
}

static void cue_files(void)
{
    for (size_t k = 0; k < sizeof cue_table / sizeof *cue_table; k++)
        cue_table[k] = UINT64_MAX;
    for (size_t k = 0; k < sizeof long_text; k++)
        long_text[k] = (uint8_t)(k * 167 >> 3);
    sheet_written();
    uris_of_a_file();
    most_clips();
    most_without_uris();
    longest_uris();
    writing_refused();
    each_byte();
    reading_refused();
    read_and_written();
}

/* ---- the room that the reader needs, and the reader with just that, a word less or more */

enum { ROOM_SIZE = 4 * LEDGERFERN_CLIP_WORDS };

static uint64_t room_clips[ROOM_SIZE], room_tags[ROOM_SIZE];

#define LIST(list) (const uint8_t *)(list), sizeof(list) - 1

/* Reads into two tables that are filled with 7s: words that are not lent, and those behind the last record, stay so. */
static ledgerfern_read_answer read_into(const uint8_t *from, size_t length, size_t clip_words, size_t tag_words)
{
    for (size_t k = 0; k < ROOM_SIZE; k++)
        room_clips[k] = room_tags[k] = 7;
    ledgerfern_read_answer answer = ledgerfern_read(from, length, room_clips, clip_words, room_tags, tag_words);
    for (size_t k = answer.clips * LEDGERFERN_CLIP_WORDS; k < ROOM_SIZE; k++)
        SAME(room_clips[k], 7);
    for (size_t k = answer.tags * LEDGERFERN_TAG_WORDS; k < ROOM_SIZE; k++)
        SAME(room_tags[k], 7);
    return answer;
}

static void one_room(ledgerfern_room_answer room, uint64_t number, uint64_t place, uint64_t clip_count,
                     uint64_t tag_count)
{
    SAME(room.number, number);
    SAME(room.place, place);
    SAME(room.clips, clip_count);
    SAME(room.tags, tag_count);
}

static void needs(uint64_t clip_count, uint64_t tag_count, const uint8_t *from, size_t length)
{
    size_t clip_words = clip_count * LEDGERFERN_CLIP_WORDS, tag_words = tag_count * LEDGERFERN_TAG_WORDS;

    one_room(ledgerfern_room(from, length), LEDGERFERN_OK, 0, clip_count, tag_count);
    for (size_t more = 0; more < 2; more++) {
        ledgerfern_read_answer answer = read_into(from, length, clip_words + more, tag_words + more);
        SAME(answer.number, LEDGERFERN_OK);
        SAME(answer.clips, clip_count);
        SAME(answer.tags, tag_count);
    }
    if (clip_words > 0)
        for (size_t words = 0; words <= tag_words; words++)
            SAME(read_into(from, length, clip_words - 1, words).number, LEDGERFERN_CLIP_TABLE_SHORT);
    if (tag_words > 0)
        SAME(read_into(from, length, clip_words, tag_words - 1).number, LEDGERFERN_TAG_TABLE_SHORT);
}

/* Neither call takes it, whatever the tables. */
static void taken_by_none(uint64_t number, uint64_t place, const uint8_t *from, size_t length)
{
    one_room(ledgerfern_room(from, length), number, place, 0, 0);
    for (size_t words = 0; words <= ROOM_SIZE; words += ROOM_SIZE) {
        ledgerfern_read_answer answer = read_into(from, length, words, words);
        SAME(answer.number, number);
        SAME(answer.place, place);
    }
}

static void rooms(void)
{
    needs(0, 0, LIST("#EXTM3U"));
    needs(3, 0, LIST(sheet));
    needs(2, 2, LIST("#EXTM3U\n#EXT-A\n#EXT-B:r\na\nb\n#EXT-C\n")); /* what follows the last URI is dropped */
    needs(1, 1, LIST("#EXTM3U\n#EXT-A\na\n#EXT-B\nb\rc\nd\n"));      /* the reading stops at a lone CR */

    /* Each in a text that the ones behind it refuse too. */
    static uint8_t too_long[LEDGERFERN_TEXT_LIMIT + 1];
    memset(too_long, 0xFF, sizeof too_long);
    taken_by_none(LEDGERFERN_TEXT_TOO_LONG, 0, too_long, sizeof too_long);
    taken_by_none(LEDGERFERN_NOT_UTF8, 0, too_long, sizeof too_long - 1);
    taken_by_none(LEDGERFERN_NO_HEADER, 0, LIST("#EXTM3\n#EXT-X-STREAM-INF\na\n"));
    taken_by_none(LEDGERFERN_IS_MASTER, 8, LIST("#EXTM3U\n#EXT-X-STREAM-INF\n#EXT-X-KEY:\na\n"));
    taken_by_none(LEDGERFERN_LEFT_OUT_TAG, 10, LIST("#EXTM3U\na\n#EXT-X-KEY:\n#EXTINF:0000000009,\nb\n"));
    taken_by_none(LEDGERFERN_TOO_MANY_DIGITS, 10, LIST("#EXTM3U\na\n#EXTINF:0000000009,\n#EXT-X-KEY:\nb\n"));

    /* The text with the most clips is still there; then one with the most tags, and the one clip that they belong to. */
    one_room(ledgerfern_room(long_text, LEDGERFERN_TEXT_LIMIT), LEDGERFERN_OK, 0, LEDGERFERN_MOST_CLIPS, 0);
    for (size_t k = 0; k < LEDGERFERN_MOST_TAGS; k++)
        memcpy(long_text + 7 + 7 * k, "#EXT-a\n", 7);
    long_text[7 + 7 * LEDGERFERN_MOST_TAGS] = 'b';
    one_room(ledgerfern_room(long_text, 8 + 7 * LEDGERFERN_MOST_TAGS), LEDGERFERN_OK, 0, 1, LEDGERFERN_MOST_TAGS);
}

int main(void)
{
    for (size_t k = 0; k < sizeof table / sizeof *table; k++)
        table[k] = UINT64_MAX;
    for (size_t clip = 0; clip < CLIPS; clip++)
        clips[clip * LEDGERFERN_CLIP_WORDS + LEDGERFERN_LENGTH] = lengths[clip];
    one_start();
    all_starts();
    what_is_on();
    chains();
    far_ends();
    windows_refused();
    long_uris();
    read_and_asked();
    cue_files();
    rooms();
    printf("%d of %d numbers are right\n", numbers - wrong, numbers);
    return wrong > 0;
}
