/* What the threads of threads.c and of burst_threads.c share. */
#include "workers.h"

uint64_t item_of(const worker *producer, uint64_t more) {
    return producer->number << 32 | (producer->count + more);
}

void start(worker *self, void *(*work)(void *)) {
    self->count = self->next = 0;
    CHECK(pthread_create(&self->thread, NULL, work, self) == 0);
}

uint64_t join_all(worker *workers, int count) {
    uint64_t sum = 0;
    for (int i = 0; i < count; i++) {
        CHECK(pthread_join(workers[i].thread, NULL) == 0);
        sum += workers[i].count;
    }
    return sum;
}

void check_order(const worker *producers, int count, const uint64_t *taken, uint64_t first, uint64_t total) {
    uint64_t next[MOST_PAIRS] = {0};
    for (uint64_t ticket = first; ticket < first + total; ticket++) {
        uint64_t number = taken[ticket] >> 32;
        CHECK(number < (uint64_t)count && (taken[ticket] & UINT32_MAX) == next[number]);
        next[number]++;
    }
    for (int i = 0; i < count; i++)
        CHECK(next[i] == producers[i].count);
}
