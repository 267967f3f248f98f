/*
 * Shared by the benchmarks of the machine and of the engine: the drum, words,
 * the clock and medians.
 */
#ifndef BENCH_H
#define BENCH_H

#include "hemdroas.h"

#include <stdio.h>
#include <stdlib.h>
#include <string.h>
#include <time.h>

enum { MOST_ROUNDS = 1001, U = 1024, SL = 256, SH = 511, M = 0, P = 16, S = 2, B = 4096, Q = 64, LOG = 800000, READINGS = 400000 };
/* Orders are limited to 50,000, half of what the counter reaches. */
static const struct hemdroas_layout layout = {U, SL, SH, M, P, S, B, Q, {50000, 50000, 50000, 50000, 50000, 50000, 50000, 50000}};

/* The word of a command or an instruction. */
static uint64_t word(uint64_t k, uint64_t d, uint64_t a, uint64_t b, uint64_t c, uint64_t v) {
    return k | d << 8 | a << 12 | b << 16 | c << 20 | v << 32;
}

static double now(void) {
    struct timespec t;
    clock_gettime(CLOCK_MONOTONIC, &t);
    return t.tv_sec * 1e9 + t.tv_nsec;
}
static int order(const void *a, const void *b) {
    double x = *(const double *)a, y = *(const double *)b;
    return x < y ? -1 : x > y;
}
static double median(double *x, int n) {
    qsort(x, n, sizeof *x, order);
    return x[n / 2];
}

/* Short calls in a round. */
enum { SLICES = 2000 };

#endif
