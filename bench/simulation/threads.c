/* Threads that begin together, each on a processor of its own, and how long they take. */
#define _GNU_SOURCE
#include <pthread.h>
#include <sched.h>
#include <stdlib.h>
#include <time.h>
#include "threads.h"
enum { ROUNDS = 11 };

static _Atomic int begun, ready;

static double nanos_now(void) {
    struct timespec now;
    clock_gettime(CLOCK_MONOTONIC, &now);
    return (double)now.tv_sec * 1e9 + (double)now.tv_nsec;
}

void begin_as(int number) {
    cpu_set_t only;
    CPU_ZERO(&only);
    CPU_SET(number, &only);
    if (sched_setaffinity(0, sizeof only, &only)) exit(1);
    atomic_fetch_add(&ready, 1);
    while (!atomic_load(&begun)) MOMENT();
}

static double time_of_round(void *(*work)(void *), int threads_in_all) {
    pthread_t threads[MOST_THREADS];
    int numbers[MOST_THREADS];
    atomic_store(&ready, 0);
    atomic_store(&begun, 0);
    for (int n = 0; n < threads_in_all; n++) {
        numbers[n] = n;
        if (pthread_create(&threads[n], NULL, work, &numbers[n])) exit(1);
    }
    while (atomic_load(&ready) < threads_in_all) sched_yield();
    double start = nanos_now();
    atomic_store(&begun, 1);
    for (int n = 0; n < threads_in_all; n++) pthread_join(threads[n], NULL);
    return nanos_now() - start;
}

static int by_size(const void *a, const void *b) {
    double x = *(const double *)a, y = *(const double *)b;
    return (x > y) - (x < y);
}

struct spread time_of(void (*open)(void), void *(*work)(void *), int threads) {
    double rounds[ROUNDS];
    for (int r = 0; r < ROUNDS; r++) {
        open();
        rounds[r] = time_of_round(work, threads);
    }
    qsort(rounds, ROUNDS, sizeof *rounds, by_size);
    return (struct spread){ rounds[0], rounds[ROUNDS / 2], rounds[ROUNDS - 1] };
}
