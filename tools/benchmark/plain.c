/*
 * A cue file (docs/CUE-FILE.md) written and read by plain C that checks nothing: what the library's two calls are timed
 * beside. It takes for granted that the table keeps the rule, that the output has room, and that a file is one.
 */
#include <stddef.h>
#include <stdint.h>
#include <string.h>

#include "ledgerfern.h"

enum { RECORD = 10 };

static uint8_t *put(uint8_t *to, uint64_t value, int bytes)
{
    while (bytes-- > 0)
        *to++ = (uint8_t)(value >> 8 * bytes);
    return to;
}

static uint64_t number(const uint8_t *from, int bytes)
{
    uint64_t value = 0;

    while (bytes-- > 0)
        value = value << 8 | *from++;
    return value;
}

/* Records and URIs in one pass, and the trailer; how many bytes they are. */
size_t plain_cue_write(const uint8_t *text, size_t count, const uint64_t *clips, uint8_t *output)
{
    uint8_t *record = output, *uri = output + RECORD * count;
    uint64_t start = 0;

    for (size_t k = 0; k < count; k++) {
        const uint64_t *clip = clips + k * LEDGERFERN_CLIP_WORDS;
        size_t length = clip[LEDGERFERN_URI_END] - clip[LEDGERFERN_URI_START];
        record = put(record, start / LEDGERFERN_SECOND, 4);
        record = put(record, start % LEDGERFERN_SECOND, 4);
        record = put(record, length, 2);
        memcpy(uri, text + clip[LEDGERFERN_URI_START], length);
        uri += length;
        start += clip[LEDGERFERN_LENGTH];
    }
    uri = put(uri, 0, 4);
    uri = put(uri, RECORD * count, 4);
    uri = put(uri, count, 2);
    uri = put(uri, 1, 2);
    return (size_t)(uri - output);
}

/* The record of a clip, and its URI behind those of the clips before it. */
ledgerfern_cue_answer plain_cue_read(const uint8_t *file, size_t size, size_t clip)
{
    uint64_t count = number(file + size - 4, 2), uri = RECORD * count;
    const uint8_t *record = file;

    for (size_t k = 0; k < clip; k++, record += RECORD)
        uri += number(record + 8, 2);
    uint64_t start = number(record, 4) * LEDGERFERN_SECOND + number(record + 4, 4);
    ledgerfern_cue_answer found = {LEDGERFERN_OK, 0, start, uri, uri + number(record + 8, 2), count};
    return found;
}
