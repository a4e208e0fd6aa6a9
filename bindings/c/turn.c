/*
 * Prints a turn of a playlist: each clip's start tick and URI, then the total in ns.
 *
 *     turn [RATE [TURN]] < list.m3u8
 *
 * The rate is 100 ticks a second and the turn 0 where they are not given. The exit status is as list.h has it.
 */
#define PROGRAM "turn"
#define USAGE "usage: turn [RATE [TURN]] < list.m3u8\n"
#include "list.h"

int main(int words, char **word)
{
    if (words > 3)
        usage();
    uint64_t rate = words > 1 ? number("RATE", word[1]) : 100;
    uint64_t turn = words > 2 ? number("TURN", word[2]) : 0;
    size_t count = read_list();
    size_t start_words = count * LEDGERFERN_START_WORDS;
    uint64_t *starts = table(start_words);

    ledgerfern_starts_answer all = ledgerfern_starts(count, clips, clip_words, rate, turn, starts, start_words);
    refuse(all.number, all.place);
    for (size_t clip = 0; clip < count; clip++) {
        printf("%" PRIu64 "\t", starts[clip * LEDGERFERN_START_WORDS + LEDGERFERN_START_TICK]);
        print_uri(clip);
        putchar('\n');
    }
    ledgerfern_value_answer total = ledgerfern_total(count, clips, clip_words);
    refuse(total.number, total.place);
    printf("total\t%" PRIu64 "\n", total.value);
    return ended(0);
}
