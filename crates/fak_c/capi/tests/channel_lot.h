/* Functions of the tests that park, over a lock, for the ends of a channel (fak_channel.h). They know who is parked where. */
#ifndef FAK_CHANNEL_LOT_H
#define FAK_CHANNEL_LOT_H

#include "fak_channel.h"

#include <pthread.h>
#include <stdbool.h>
#include <stddef.h>

typedef struct {
    pthread_cond_t woken;
    bool is_set;       /* the token */
    bool is_held;      /* whether the threads that are parked here don't take it */
    size_t parked;     /* how many threads are parked here */
    uint64_t deadline; /* of the thread that has parked here last */
} place;

typedef struct {
    pthread_mutex_t lock;
    size_t count; /* of places, one for each number */
    place *places;
    uint64_t parks, unparks;
} lot;

void make_lot(lot *self, size_t count);
void free_lot(lot *self);

/* How the ends of a channel with this many seats wait in the lot. */
fak_channel_waiting waiting_in(lot *self, size_t seats);

/* Opens a channel, all ends of which wait in the lot. */
void open_in(lot *self, fak_channel_waiting *waiting, fak_channel_end *ends, size_t n, uint64_t size);

/* Waits until this many threads are parked at this number, or until threads have parked this often. Fails after half a minute. */
void wait_until_parked(lot *self, uint64_t number, size_t threads);
void wait_until_parks(lot *self, uint64_t parks);

/* Meanwhile no thread that is parked at this number takes the token. */
void hold(lot *self, uint64_t number);
void release(lot *self, uint64_t number);

/* The deadline of the thread that has parked at this number last. */
uint64_t deadline_at(lot *self, uint64_t number);

#endif
