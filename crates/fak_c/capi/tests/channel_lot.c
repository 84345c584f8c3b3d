/* The functions of channel_lot.h. */
#include "channel_lot.h"

#include "tests.h"

#include <sched.h>
#include <stdlib.h>
#include <time.h>

static void lock(lot *self) {
    CHECK(pthread_mutex_lock(&self->lock) == 0);
}

static void unlock(lot *self) {
    CHECK(pthread_mutex_unlock(&self->lock) == 0);
}

static bool park_in(void *context, uint64_t number, uint64_t deadline) {
    lot *self = context;
    place *here = &self->places[number];
    struct timespec time = {(time_t)(deadline / 1000000000), (long)(deadline % 1000000000)};
    bool is_woken;
    int status = 0;
    CHECK(number < self->count && deadline != 0);
    lock(self);
    self->parks++;
    here->parked++;
    here->deadline = deadline;
    while ((!here->is_set || here->is_held) && status == 0)
        status = deadline == FAK_CHANNEL_NEVER ? pthread_cond_wait(&here->woken, &self->lock)
                                               : pthread_cond_timedwait(&here->woken, &self->lock, &time);
    is_woken = here->is_set;
    here->is_set = false;
    here->parked--;
    unlock(self);
    return is_woken;
}

static void unpark_in(void *context, uint64_t number) {
    lot *self = context;
    CHECK(number < self->count);
    lock(self);
    self->unparks++;
    self->places[number].is_set = true;
    CHECK(pthread_cond_signal(&self->places[number].woken) == 0);
    unlock(self);
}

static void yield_in(void *context, uint64_t rounds) {
    (void)context, (void)rounds;
    sched_yield();
}

void make_lot(lot *self, size_t count) {
    pthread_condattr_t monotonic;
    *self = (lot){.count = count, .places = calloc(count, sizeof *self->places)};
    CHECK(self->places != NULL && pthread_mutex_init(&self->lock, NULL) == 0);
    CHECK(pthread_condattr_init(&monotonic) == 0 && pthread_condattr_setclock(&monotonic, CLOCK_MONOTONIC) == 0);
    for (size_t i = 0; i < count; i++)
        CHECK(pthread_cond_init(&self->places[i].woken, &monotonic) == 0);
}

void free_lot(lot *self) {
    for (size_t i = 0; i < self->count; i++)
        CHECK(pthread_cond_destroy(&self->places[i].woken) == 0);
    CHECK(pthread_mutex_destroy(&self->lock) == 0);
    free(self->places);
}

fak_channel_waiting waiting_in(lot *self, size_t seats) {
    return (fak_channel_waiting){park_in, unpark_in, yield_in, self, 0, seats, 0};
}

void open_in(lot *self, fak_channel_waiting *waiting, fak_channel_end *ends, size_t n, uint64_t size) {
    fak_c_seat *seats = calloc(n, sizeof *seats);
    CHECK(seats != NULL && fak_channel_open(seats, n, size, LONG_STINT) == FAK_C_OK);
    *waiting = waiting_in(self, n);
    for (size_t i = 0; i < n; i++)
        CHECK(fak_channel_end_of(&seats[i], waiting, &ends[i]) == FAK_C_OK);
    free(seats);
}

/* Looks again after a rest. */
static void rest_between_looks(int looks) {
    CHECK(looks < 30000);
    CHECK(nanosleep(&(struct timespec){0, 1000000}, NULL) == 0);
}

void wait_until_parked(lot *self, uint64_t number, size_t threads) {
    for (int looks = 0;; looks++) {
        size_t parked;
        lock(self);
        parked = self->places[number].parked;
        unlock(self);
        if (parked == threads)
            return;
        rest_between_looks(looks);
    }
}

void wait_until_parks(lot *self, uint64_t parks) {
    for (int looks = 0;; looks++) {
        uint64_t found;
        lock(self);
        found = self->parks;
        unlock(self);
        if (found == parks)
            return;
        rest_between_looks(looks);
    }
}

void hold(lot *self, uint64_t number) {
    lock(self);
    self->places[number].is_held = true;
    unlock(self);
}

void release(lot *self, uint64_t number) {
    lock(self);
    self->places[number].is_held = false;
    if (self->places[number].is_set)
        CHECK(pthread_cond_signal(&self->places[number].woken) == 0);
    unlock(self);
}

uint64_t deadline_at(lot *self, uint64_t number) {
    uint64_t deadline;
    lock(self);
    deadline = self->places[number].deadline;
    unlock(self);
    return deadline;
}
