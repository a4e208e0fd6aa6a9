/*
 * Ledgerfern: a proved reader and writer of HLS media playlists, with an exact clock. C99.
 *
 * Link with libledgerfern.a, which `tools/archive` writes below target/staticlib (for x86-64).
 *
 * Every call answers for any bytes, any words and any numbers; each is proved to end, and to touch only the memory that
 * it is lent. Nothing is kept after a call and nothing is allocated: text and tables are the caller's, before and after.
 * A pointer must be valid for its length (counted in bytes for a text, a file and an output, in words for a table) and,
 * even where the length is 0, not NULL; a table has the alignment of uint64_t, and needs no more. What a call writes to
 * may not overlap anything else that it is given. Calls may run at once in several threads, as long as no two share a
 * table or an output that is written.
 *
 * An answer is a struct by value. `number` is 0 where the call is answered, and else the refusal's number, `place` the
 * place in the text that it names; all other fields are then 0, and no lent memory has changed.
 */
#ifndef LEDGERFERN_H
#define LEDGERFERN_H

#include <stddef.h>
#include <stdint.h>

#ifdef __cplusplus
extern "C" {
#endif

/* ---- refusals ----------------------------------------------------------------------------------------------------- */

enum ledgerfern_refusal {
    LEDGERFERN_OK = 0,
    LEDGERFERN_TEXT_TOO_LONG = 1,    /* text above LEDGERFERN_TEXT_LIMIT bytes; place 0 */
    LEDGERFERN_NOT_UTF8 = 2,         /* text is not UTF-8; the first byte of the first ill-formed sequence */
    LEDGERFERN_NO_HEADER = 3,        /* text does not begin with #EXTM3U; place 0 */
    LEDGERFERN_IS_MASTER = 4,        /* it is a master playlist; the `#` of the tag that decided */
    LEDGERFERN_LEFT_OUT_TAG = 5,     /* #EXT-X-KEY:, -START:, -PROGRAM-DATE-TIME: or -DATERANGE:; its `#` */
    LEDGERFERN_TOO_MANY_DIGITS = 6,  /* an EXTINF with over 9 digits before or after the point; its `#` */
    LEDGERFERN_CLIP_TABLE_SHORT = 7, /* the clip table has too few words for the clips; place 0 */
    LEDGERFERN_TAG_TABLE_SHORT = 8,  /* the tag table has too few words for the kept unknown tags; place 0 */
    LEDGERFERN_BROKEN_TABLE = 9,     /* a table breaks the rule of the call; place 0 */
    LEDGERFERN_OUTPUT_SHORT = 10,    /* the output, or the table of starts or of windows, is too short; place 0 */
    LEDGERFERN_TOTAL_TOO_LONG = 11,  /* all lengths together above LEDGERFERN_TOTAL_LIMIT ns; place 0 */
    LEDGERFERN_BAD_RATE = 12,        /* rate 0, or above LEDGERFERN_RATE_LIMIT; place 0 */
    LEDGERFERN_TURN_TOO_LATE = 13,   /* turn above LEDGERFERN_TURN_LIMIT; place 0 */
    LEDGERFERN_NO_SUCH_CLIP = 14,    /* the clip's index is not below the number of clips; place 0 */
    LEDGERFERN_WINDOW_TOO_FAR = 15,  /* a window's end above 2^64 - 1; place 0 */
    LEDGERFERN_NO_RANGE_BEFORE = 16, /* a range without an offset, and none of the same URI just before it; place 0 */
    LEDGERFERN_NOTHING_PLAYS = 17,   /* there are no clips, or all lengths together are 0; place 0 */
    LEDGERFERN_TICK_TOO_LATE = 18,   /* a tick at or past the start tick of turn 1,000,000; place 0 */
    LEDGERFERN_FILE_TOO_SHORT = 19,  /* a cue file shorter than its trailer of 12 bytes; place 0 */
    LEDGERFERN_OTHER_VERSION = 20,   /* a cue file of a version that is not 1; place 0 */
    LEDGERFERN_NOT_EXACT = 21,       /* a place, count or length in a cue file that does not fit exactly; place 0 */
    LEDGERFERN_BAD_START = 22,       /* a start in a cue file that is not 0 in the first clip, falls, or is too late, or
                                        ns that make a second; place 0 */
    LEDGERFERN_TOO_WIDE = 33         /* more clips, or a longer URI, than the fields of a cue file hold; place 0 */
};

/* ---- limits ------------------------------------------------------------------------------------------------------- */

#define LEDGERFERN_TEXT_LIMIT 65536
#define LEDGERFERN_SECOND UINT64_C(1000000000)                /* ns in a second: 10^9 */
#define LEDGERFERN_LENGTH_LIMIT UINT64_C(1000000000000000000) /* a clip's length in ns is below this: 10^18 */
#define LEDGERFERN_TOTAL_LIMIT UINT64_C(1000000000000000)     /* the largest total in ns: 10^15 */
#define LEDGERFERN_RATE_LIMIT 90000                           /* the largest rate, in ticks a second; the least is 1 */
#define LEDGERFERN_TURN_LIMIT 999999                          /* the last turn; the first is 0 */

/*
 * Tables of so many records hold what any text within the limit has: `never_short`, crates/media/proofs/Most.antt. How
 * many a text needs itself ledgerfern_room says.
 */
#define LEDGERFERN_MOST_CLIPS 32765
#define LEDGERFERN_MOST_TAGS 9361

/*
 * How many bytes a cue file has: ten a clip, the bytes of all URIs together, and twelve. So many as MOST_ says hold the
 * file of any list that was read, since a text within the limit has no more clips, and its URIs do not overlap. A table
 * made by hand may show the same bytes in many URIs, and then its file may be longer.
 */
#define LEDGERFERN_CUE_FILE_BYTES(clips, uri_bytes) ((clips)*10 + (uri_bytes) + 12)
#define LEDGERFERN_MOST_CUE_FILE_BYTES LEDGERFERN_CUE_FILE_BYTES(LEDGERFERN_MOST_CLIPS, LEDGERFERN_TEXT_LIMIT)

/* ---- the tables --------------------------------------------------------------------------------------------------- */

/*
 * A clip's record is LEDGERFERN_CLIP_WORDS words of 64 bits, the k-th record beginning at word k x LEDGERFERN_CLIP_WORDS.
 * A start and an end are places in the text: the first byte, and the place after the last. What is absent is zeros.
 */
#define LEDGERFERN_CLIP_WORDS 17
#define LEDGERFERN_URI_START 0
#define LEDGERFERN_URI_END 1
#define LEDGERFERN_LENGTH 2        /* in ns, exact */
#define LEDGERFERN_BITS 3          /* the bits of the binary32 nearest to the length in seconds */
#define LEDGERFERN_TITLE_START 4   /* a title is there unless both its words are 0 */
#define LEDGERFERN_TITLE_END 5
#define LEDGERFERN_FLAGS 6         /* the sum of LEDGERFERN_HAS_.. */
#define LEDGERFERN_RANGE_LENGTH 7  /* #EXT-X-BYTERANGE */
#define LEDGERFERN_RANGE_OFFSET 8
#define LEDGERFERN_MAP_URI_START 9 /* #EXT-X-MAP */
#define LEDGERFERN_MAP_URI_END 10
#define LEDGERFERN_MAP_RANGE_LENGTH 11
#define LEDGERFERN_MAP_RANGE_OFFSET 12
#define LEDGERFERN_MAP_LIST_START 13 /* the map's whole attribute list */
#define LEDGERFERN_MAP_LIST_END 14
#define LEDGERFERN_FIRST_TAG 15 /* the index of the clip's first unknown tag: how many earlier clips have */
#define LEDGERFERN_TAG_COUNT 16 /* how many unknown tags it has */

#define LEDGERFERN_HAS_RANGE 1
#define LEDGERFERN_HAS_RANGE_OFFSET 2
#define LEDGERFERN_HAS_DISCONTINUITY 4
#define LEDGERFERN_HAS_MAP 8
#define LEDGERFERN_HAS_MAP_RANGE 16
#define LEDGERFERN_HAS_MAP_OFFSET 32
#define LEDGERFERN_FLAG_LIMIT 64 /* a word of flags is below this */

/* An unknown tag's record: its name behind `#EXT-`, and its rest behind the colon, there unless both its words are 0. */
#define LEDGERFERN_TAG_WORDS 4
#define LEDGERFERN_NAME_START 0
#define LEDGERFERN_NAME_END 1
#define LEDGERFERN_REST_START 2
#define LEDGERFERN_REST_END 3

/* A start's record, as ledgerfern_starts gives it: one for each clip. */
#define LEDGERFERN_START_WORDS 2
#define LEDGERFERN_START_NS 0   /* its start within the turn, in ns, exact */
#define LEDGERFERN_START_TICK 1 /* its start tick, counted from the beginning of turn 0 */

/* A window's record, as ledgerfern_windows gives it: one for each clip, with what ledgerfern_window answers for it. */
#define LEDGERFERN_WINDOW_WORDS 4
#define LEDGERFERN_WINDOW_NUMBER 0  /* 0, or the refusal's number, 15 or 16; the other words are then 0 */
#define LEDGERFERN_WINDOW_PRESENT 1 /* a mark: the clip has a range; else start and end are 0 */
#define LEDGERFERN_WINDOW_START 2
#define LEDGERFERN_WINDOW_END 3 /* the place after the last byte */

/* ---- answers ------------------------------------------------------------------------------------------------------ */

/* A mark is 1 where it holds, else 0. */
typedef struct {
    uint64_t number;
    uint64_t place;
    uint64_t master; /* a mark */
} ledgerfern_verdict_answer;

/* A playlist's head. Numbers whose tag is not there are 0. */
typedef struct {
    uint64_t version_present; /* a mark */
    uint64_t version;
    uint64_t target_duration;
    uint64_t media_sequence;
    uint64_t discontinuity_sequence;
    uint64_t playlist_type; /* one of LEDGERFERN_TYPE_.. */
    uint64_t type_start;    /* of another text its span, else 0 and 0 */
    uint64_t type_end;
    uint64_t end_list;             /* a mark */
    uint64_t i_frames_only;        /* a mark */
    uint64_t independent_segments; /* a mark */
} ledgerfern_head;

#define LEDGERFERN_TYPE_ABSENT 0
#define LEDGERFERN_TYPE_EVENT 1
#define LEDGERFERN_TYPE_VOD 2
#define LEDGERFERN_TYPE_OTHER 3

typedef struct {
    uint64_t number;
    uint64_t place;
    uint64_t clips; /* records in the clip table */
    uint64_t tags;  /* records in the tag table */
    uint64_t stop;  /* where the reading stopped: the text's length, or the step that met a lone CR */
    ledgerfern_head head;
} ledgerfern_read_answer;

typedef struct {
    uint64_t number;
    uint64_t place;
    uint64_t clips; /* records that the clip table needs, of LEDGERFERN_CLIP_WORDS words */
    uint64_t tags;  /* records that the tag table needs, of LEDGERFERN_TAG_WORDS words */
} ledgerfern_room_answer;

typedef struct {
    uint64_t number;
    uint64_t place;
    uint64_t length; /* bytes written */
} ledgerfern_written_answer;

typedef struct {
    uint64_t number;
    uint64_t place;
    uint64_t value;
} ledgerfern_value_answer;

typedef struct {
    uint64_t number;
    uint64_t place;
    uint64_t clips; /* records in the table of starts */
} ledgerfern_starts_answer;

typedef struct {
    uint64_t number;
    uint64_t place;
    uint64_t turn;
    uint64_t clip; /* its index in the table */
} ledgerfern_on_answer;

typedef struct {
    uint64_t number;
    uint64_t place;
    uint64_t turn;
    uint64_t clip;  /* its index in the table */
    uint64_t since; /* how many ticks ago it started */
    uint64_t left;  /* in how many ticks the next start is; above 0 */
} ledgerfern_playing_answer;

typedef struct {
    uint64_t number;
    uint64_t place;
    uint64_t present; /* a mark: the clip has a range; else start and end are 0 */
    uint64_t start;
    uint64_t end; /* the place after the last byte */
} ledgerfern_window_answer;

typedef struct {
    uint64_t number;
    uint64_t place;
    uint64_t clips; /* records in the table of windows */
} ledgerfern_windows_answer;

typedef struct {
    uint64_t number;
    uint64_t place;
    uint64_t start;     /* of the clip, in ns, exact */
    uint64_t uri_start; /* its URI: the place of the first byte in the file */
    uint64_t uri_end;   /* and the place after the last */
    uint64_t clips;     /* in the file */
} ledgerfern_cue_answer;

/* ---- calls -------------------------------------------------------------------------------------------------------- */

/* Whether a text is a master playlist. Refusals: 1, 2, 3. */
ledgerfern_verdict_answer ledgerfern_verdict(const uint8_t *text, size_t text_length);

/*
 * Reads a media playlist: its head, and its clips and their unknown tags into the two tables, whose sizes are counted in
 * words. Words past the last record stay as they were. Refusals: 1, 2, 3, 4, then 5 or 6 whichever the reading meets
 * first, 7, 8.
 */
ledgerfern_read_answer ledgerfern_read(const uint8_t *text, size_t text_length, uint64_t *clips, size_t clip_words,
                                       uint64_t *tags, size_t tag_words);

/*
 * How many records ledgerfern_read needs the two tables to have room for: its clips, and their unknown tags. With tables of
 * so many records, or longer ones, it reads this text and gives just these counts; with a word less in the clip table it
 * refuses by 7, and where that is enough, with a word less in the tag table by 8 (crates/ledgerfern/proofs/Rooms.antt).
 * No text needs more than LEDGERFERN_MOST_CLIPS and LEDGERFERN_MOST_TAGS. What is refused here the reader refuses too, by
 * the same number and at the same place, whatever the tables. It takes about as long as a reading's first half. Refusals:
 * 1, 2, 3, 4, then 5 or 6 whichever the reading meets first.
 */
ledgerfern_room_answer ledgerfern_room(const uint8_t *text, size_t text_length);

/*
 * Writes a playlist: the head's lines, then `clip_count` clips with their `tag_count` unknown tags, into the output, whose
 * bytes past the text stay as they were. Spans are places in `text`. Head and tables must keep the writer's rule (9): the
 * counts fit; spans have start <= end <= text_length; lengths are below the limit and agree with their bits; flags are
 * below the limit, and 2 stands only with 1, 16 with 8, 32 with 16; words of what is absent are 0; each clip's first tag is
 * the sum of the counts before it, and all tags are used; marks are 0 or 1, and numbers of what a head does not have are 0.
 * What ledgerfern_read gives keeps it. Refusals: 1, 9, 10.
 */
ledgerfern_written_answer ledgerfern_write(const uint8_t *text, size_t text_length, ledgerfern_head head,
                                           size_t clip_count, const uint64_t *clips, size_t clip_words,
                                           size_t tag_count, const uint64_t *tags, size_t tag_words, uint8_t *output,
                                           size_t output_length);

/*
 * The calls below are over a table of clips: `clip_count` is how many records are meant, `clip_words` the table's size.
 * Those of the clock read the words of lengths, and no others. The two of the window read those of URI, flags and range,
 * and no others; they are lent the text too, since the URIs are places in it.
 *
 * Each call walks the table from its beginning, and keeps nothing. Who asks for the start of one clip after the other, or
 * for its window, walks it once for every clip, which takes seconds where there are many: ask ledgerfern_starts for all
 * starts of a turn at once, and ledgerfern_windows for all windows.
 */

/* All lengths together, in ns. Refusals: 9, 11. */
ledgerfern_value_answer ledgerfern_total(size_t clip_count, const uint64_t *clips, size_t clip_words);

/* A clip's start within its turn, in ns, exact: the lengths before it together. Refusals: 9, 11, 14. */
ledgerfern_value_answer ledgerfern_start_ns(size_t clip_count, const uint64_t *clips, size_t clip_words, size_t clip);

/*
 * The tick at which a clip starts in a turn, where the list is played turn after turn at `rate` ticks a second: the last
 * whole tick that is not after the exact moment. Refusals: 9, 11, 12, 13, 14.
 */
ledgerfern_value_answer ledgerfern_start_tick(size_t clip_count, const uint64_t *clips, size_t clip_words,
                                              uint64_t rate, uint64_t turn, size_t clip);

/* A clip's ticks in a turn: the next start minus its own, so that they add up. Refusals: 9, 11, 12, 13, 14. */
ledgerfern_value_answer ledgerfern_clip_ticks(size_t clip_count, const uint64_t *clips, size_t clip_words,
                                              uint64_t rate, uint64_t turn, size_t clip);

/*
 * All starts of a turn in one pass: of each clip what ledgerfern_start_ns and ledgerfern_start_tick give, as a record of
 * LEDGERFERN_START_WORDS words in the table of starts. Words past the last record stay as they were. Refusals: 9, 11, 12,
 * 13, then 10 where `start_words` is below clip_count x LEDGERFERN_START_WORDS.
 */
ledgerfern_starts_answer ledgerfern_starts(size_t clip_count, const uint64_t *clips, size_t clip_words, uint64_t rate,
                                           uint64_t turn, uint64_t *starts, size_t start_words);

/*
 * Which clip is on at a tick, counted from the beginning of turn 0: the last pair, by turn then clip, up to turn
 * LEDGERFERN_TURN_LIMIT, whose start tick is not after the tick. So of clips that start at one tick the last is on, and a
 * clip of length 0 never is. Refusals: 9, 11, 12, 17, 18.
 */
ledgerfern_on_answer ledgerfern_clip_at(size_t clip_count, const uint64_t *clips, size_t clip_words, uint64_t rate,
                                        uint64_t tick);

/*
 * The same, and when to start the next: the clip started `since` ticks ago, and the next start is in `left` ticks. After
 * the last clip of turn LEDGERFERN_TURN_LIMIT that is the start of the turn behind it. Both together are what
 * ledgerfern_clip_ticks gives. This clip stays on for `left` ticks; ask again at tick + left. Refusals: 9, 11, 12, 17, 18.
 */
ledgerfern_playing_answer ledgerfern_playing_at(size_t clip_count, const uint64_t *clips, size_t clip_words,
                                                uint64_t rate, uint64_t tick);

/*
 * The part of its resource that a clip's range names (RFC 8216, 4.3.2.2). With an offset it begins there. Without one it
 * begins where the window of the clip just before ends; that clip must have a range, and the same URI: the same bytes,
 * wherever in the text they stand. Where it has not, or is refused by 16 itself, or there is none, the answer is 16. No
 * clip is skipped, and a discontinuity breaks no chain. An end above 2^64 - 1 is 15, and so is all that goes on from it.
 *
 * Of the text only the length is judged (1): it need be neither UTF-8 nor a playlist. The table must keep the window's
 * rule (9), also behind the clip that is asked for: the count fits; flags are below the limit; URIs have start <= end <=
 * text_length. What ledgerfern_read gives keeps it, with the text that was read. Refusals: 1, 9, 14, 16, 15.
 */
ledgerfern_window_answer ledgerfern_window(const uint8_t *text, size_t text_length, size_t clip_count,
                                           const uint64_t *clips, size_t clip_words, size_t clip);

/*
 * The windows of all clips in one pass: of each clip what ledgerfern_window gives, as a record of LEDGERFERN_WINDOW_WORDS
 * words in the table of windows. A clip that is refused by 15 or 16 has that number in its record, and stops nothing.
 * Words past the last record stay as they were. Refusals: 1, 9, then 10 where `window_words` is below clip_count x
 * LEDGERFERN_WINDOW_WORDS.
 */
ledgerfern_windows_answer ledgerfern_windows(const uint8_t *text, size_t text_length, size_t clip_count,
                                             const uint64_t *clips, size_t clip_words, uint64_t *windows,
                                             size_t window_words);

/* ---- the cue file, which the motor board reads: docs/CUE-FILE.md has every byte of it ------------------------------ */

/*
 * Writes the cue file of a table of clips into the output, whose bytes past the file stay as they were: of each clip its
 * start in ns, as ledgerfern_start_ns gives it, and its URI. Nothing else of a clip is kept; so the last one's length is
 * not. It reads the words of URI and length, and no others. The output needs LEDGERFERN_CUE_FILE_BYTES (10).
 *
 * Of the text only the length is judged (1): it need be neither UTF-8 nor a playlist. The table must keep the rule (9):
 * the count fits; lengths are below the limit; URIs have start <= end <= text_length, and may overlap. What
 * ledgerfern_read gives keeps it, with the text that was read. All lengths together, the last one's too, are at most the
 * total's limit (11). A count or a URI's length above 65,535 is 33, which no list that was read has. Refusals: 1, 9, 11,
 * 33, 10.
 */
ledgerfern_written_answer ledgerfern_cue_write(const uint8_t *text, size_t text_length, size_t clip_count,
                                               const uint64_t *clips, size_t clip_words, uint8_t *output,
                                               size_t output_length);

/*
 * A clip of a cue file: its start, and where its URI stands in the file. The whole file is judged first, whichever clip is
 * asked for: of each list of starts and URIs there is one file, and any other bytes are refused. A file may have any size,
 * and a URI any bytes. A file without clips is a cue file too, and answers 14 to every clip. Refusals: 19, 20, 21, 22, 14.
 *
 * Each call walks the whole file, and keeps nothing. Who wants every clip of a long file asks for one of them, and then
 * takes the records and URIs from front to end as docs/CUE-FILE.md has them: a file that is answered, or is refused by 14,
 * is whole.
 */
ledgerfern_cue_answer ledgerfern_cue_read(const uint8_t *file, size_t file_length, size_t clip);

#ifdef __cplusplus
}
#endif

#endif
