/* What the benchmarks share: numbers drawn alike in every run, processor time, and medians. */
#ifndef MEASURE_H
#define MEASURE_H

#include <stdint.h>
#include <stdlib.h>
#include <time.h>

static uint64_t seed = 1;

static inline uint32_t draw(uint32_t below) {
    seed = seed * 6364136223846793005u + 1442695040888963407u;
    return (uint32_t)(seed >> 33) % below;
}

/* Nanoseconds of processor time. */
static inline double now(void) {
    struct timespec t;
    clock_gettime(CLOCK_PROCESS_CPUTIME_ID, &t);
    return 1e9 * (double)t.tv_sec + (double)t.tv_nsec;
}

static inline int by_size(const void *a, const void *b) {
    double x = *(const double *)a, y = *(const double *)b;
    return (x > y) - (x < y);
}

/* The median of the samples, which are then sorted. */
static inline double median(double *samples, size_t count) {
    qsort(samples, count, sizeof samples[0], by_size);
    return samples[count / 2];
}

#endif
