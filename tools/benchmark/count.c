/*
 * Asks valgrind's tool callgrind, if it runs this program, for the instructions between two places (src/count.rs). Where its
 * header is not there nothing is counted, and the rest of the benchmark runs as it would.
 */
void count_begin(void);
void count_end(const char *label);

#if defined __has_include
#if __has_include(<valgrind/callgrind.h>)
#include <valgrind/callgrind.h>
#define COUNTS 1
#endif
#endif

void count_begin(void)
{
#ifdef COUNTS
    CALLGRIND_START_INSTRUMENTATION;
    CALLGRIND_ZERO_STATS;
#endif
}

void count_end(const char *label)
{
#ifdef COUNTS
    CALLGRIND_DUMP_STATS_AT(label);
    CALLGRIND_STOP_INSTRUMENTATION;
#else
    (void)label;
#endif
}
