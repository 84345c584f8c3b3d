/* What the programs of this folder measure by. */
#ifndef FAK_C_FIGURES_H
#define FAK_C_FIGURES_H

#include "fak_c.h"

#include <stdio.h>
#include <stdlib.h>
#include <time.h>

/* A stint that no run uses up. */
#define LONG_STINT (UINT64_C(1) << 40)

/* Ends the program unless the condition holds: then nothing can be measured. */
static inline void must(bool condition) {
    if (!condition) {
        fprintf(stderr, "a call returned another code than it should\n");
        exit(1);
    }
}

static inline double nanoseconds(void) {
    struct timespec now;
    clock_gettime(CLOCK_MONOTONIC, &now);
    return (double)now.tv_sec * 1e9 + (double)now.tv_nsec;
}

static inline int order_of(const void *a, const void *b) {
    return (*(const double *)a > *(const double *)b) - (*(const double *)a < *(const double *)b);
}

/* Sorts the runs, and prints the median, the best and the worst. */
static inline void print_runs(const char *name, double *runs, size_t count) {
    qsort(runs, count, sizeof *runs, order_of);
    printf("%-48s %4.0f (%.0f to %.0f)\n", name, runs[count / 2], runs[0], runs[count - 1]);
}

#endif
