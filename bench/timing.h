/* What the benchmarks share: random numbers from a fixed seed, the clock, and the median of times. */
#ifndef SOFTDEMAP_BENCH_TIMING_H
#define SOFTDEMAP_BENCH_TIMING_H

#include <stdint.h>
#include <stdlib.h>
#include <time.h>

static uint64_t state = 88172645463325252u;

static inline uint32_t random32(void)
{
    state ^= state << 13;
    state ^= state >> 7;
    state ^= state << 17;
    return (uint32_t)(state >> 16);
}

/* nanoseconds */
static inline double now(void)
{
    struct timespec t;
    clock_gettime(CLOCK_MONOTONIC, &t);
    return (double)t.tv_sec * 1e9 + (double)t.tv_nsec;
}

static int by_size(const void *a, const void *b)
{
    double x = *(const double *)a, y = *(const double *)b;
    return (x > y) - (x < y);
}

static inline double median(double *times, size_t count)
{
    qsort(times, count, sizeof *times, by_size);
    return times[count / 2];
}

#endif
