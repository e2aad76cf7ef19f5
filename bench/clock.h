/* The time of a piece of work: the least over many repetitions, because whatever else the machine does only adds to it. */
#ifndef BENCH_CLOCK_H
#define BENCH_CLOCK_H

#include <time.h>

/* Nanoseconds since some fixed moment. */
static inline double now_ns(void) {
    struct timespec t;
    clock_gettime(CLOCK_MONOTONIC, &t);
    return 1e9 * (double)t.tv_sec + (double)t.tv_nsec;
}

/* The least time in nanoseconds that `work(data)` takes, repeated for so many milliseconds and at least twice. */
static inline double least_ns(void (*work)(void *), void *data, double milliseconds) {
    double least = 1e18;
    double end = now_ns() + 1e6 * milliseconds;
    for (int i = 0; i < 2 || now_ns() < end; i++) {
        double begun = now_ns();
        work(data);
        double took = now_ns() - begun;
        if (took < least)
            least = took;
    }
    return least;
}

#endif
