/* Threads that share a queue. Each item names its producer, and what is taken is noted under its ticket. */
#ifndef FAK_C_WORKERS_H
#define FAK_C_WORKERS_H

#include "tests.h"

#include <pthread.h>

enum { MOST_PAIRS = 4 };

/* What one thread works with: a seat for single calls, a bundle for bursts, or both. */
typedef struct {
    pthread_t thread;
    fak_c_seat *seat, *bundle;
    uint64_t number;       /* which producer */
    uint64_t limit;        /* how many items at most */
    uint64_t count;        /* how many there were */
    uint64_t next;         /* the least ticket that a producer may draw */
    uint64_t drawn;        /* the state of what draws lengths of bursts */
    uint64_t *put, *taken; /* items by ticket */
} worker;

/* The item that a producer puts after `more` others from now: it names the producer, and how many items came before it. */
uint64_t item_of(const worker *producer, uint64_t more);

void start(worker *self, void *(*work)(void *));

/* Joins the threads. Returns how many items they had together. */
uint64_t join_all(worker *workers, int count);

/* Under the `total` tickets from `first` on, each item of each producer was taken once, in its producer's order. */
void check_order(const worker *producers, int count, const uint64_t *taken, uint64_t first, uint64_t total);

#endif
