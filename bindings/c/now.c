/*
 * Prints what is on at a tick of a playlist that is played turn after turn: the turn, the clip's number from 0, its URI,
 * how many ticks ago it started, and in how many the next one starts.
 *
 *     now [RATE [TICK]] < list.m3u8
 *
 * The rate is 100 ticks a second and the tick 0 where they are not given. The exit status is as list.h has it.
 */
#define PROGRAM "now"
#define USAGE "usage: now [RATE [TICK]] < list.m3u8\n"
#include "list.h"

int main(int words, char **word)
{
    if (words > 3)
        usage();
    uint64_t rate = words > 1 ? number("RATE", word[1]) : 100;
    uint64_t tick = words > 2 ? number("TICK", word[2]) : 0;
    size_t count = read_list();

    ledgerfern_playing_answer now = ledgerfern_playing_at(count, clips, clip_words, rate, tick);
    refuse(now.number, now.place);
    printf("turn\t%" PRIu64 "\nclip\t%" PRIu64 "\nuri\t", now.turn, now.clip);
    print_uri(now.clip);
    printf("\nsince\t%" PRIu64 "\nleft\t%" PRIu64 "\n", now.since, now.left);
    return ended(0);
}
