/* The clock of the programs that are timed, in one place so that all of them are timed alike: milliseconds of processor time, the best of three
 * runs, or one run where it takes long. It is not the clock on the wall, so what else the machine does is not in it. */
#ifndef CLOCK_H
#define CLOCK_H

#include <sys/resource.h>

enum { RUNS = 3, LONG_MS = 5000 };

struct best {
    int runs;
    double start, least, last;
};

/* Not by clock_gettime, whose clock of the process goes in steps of 4 ms where the processor time is limited. */
static inline double processor_ms(void)
{
    struct rusage used;
    getrusage(RUSAGE_SELF, &used);
    return (double)(used.ru_utime.tv_sec + used.ru_stime.tv_sec) * 1e3 + (double)(used.ru_utime.tv_usec + used.ru_stime.tv_usec) / 1e3;
}

/* Whether another run is to be made. */
static inline int again(const struct best *best)
{
    return best->runs == 0 || (best->runs < RUNS && best->last < LONG_MS);
}

static inline void start(struct best *best)
{
    best->start = processor_ms();
}

static inline void stop(struct best *best)
{
    best->last = processor_ms() - best->start;
    if (best->runs == 0 || best->last < best->least)
        best->least = best->last;
    best->runs++;
}

#endif
