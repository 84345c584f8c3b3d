/* Threads that share a queue by single calls. */
#include "workers.h"

#include <sched.h>

enum { CELLS = 256 };

static uint64_t tickets; /* how many may be drawn */

/* Inserts up to the limit, or until the queue is shut. */
static void *produce(void *argument) {
    worker *self = argument;
    uint64_t ticket = 0, last = 0;
    int32_t code;
    while (self->count < self->limit) {
        code = fak_c_claim_insert(self->seat, item_of(self, 0), &ticket);
        if (code == FAK_C_CLOSED)
            break;
        if (code == FAK_C_FULL) {
            sched_yield();
            continue;
        }
        CHECK(code == FAK_C_OK && (self->count == 0 || ticket > last));
        last = ticket;
        while ((code = fak_c_try_fill(self->seat)) == FAK_C_NOT_YET)
            sched_yield();
        CHECK(code == FAK_C_OK);
        self->count++;
    }
    return NULL;
}

/* Deletes one item and notes it. False if the queue is empty. */
static bool take_one(worker *self) {
    uint64_t ticket = 0, item = 0;
    int32_t code = fak_c_claim_delete(self->seat, &ticket);
    if (code == FAK_C_EMPTY)
        return false;
    CHECK(code == FAK_C_OK && ticket < tickets);
    while ((code = fak_c_try_take(self->seat, &item)) == FAK_C_NOT_YET)
        sched_yield();
    CHECK(code == FAK_C_OK);
    self->taken[ticket] = item;
    self->count++;
    CHECK(fak_c_pause(self->seat) == FAK_C_OK);
    return true;
}

/* Deletes up to the limit, or until the queue is shut and drained. */
static void *consume(void *argument) {
    worker *self = argument;
    bool is_drained = false;
    while (self->count < self->limit && !is_drained) {
        if (take_one(self))
            continue;
        CHECK(fak_c_drained(self->seat, &is_drained) == FAK_C_OK);
        sched_yield();
    }
    return NULL;
}

/* Starts a worker that has a seat. */
static void start_with(worker *self, void *(*work)(void *), fak_c_seat *seat, uint64_t number, uint64_t limit, uint64_t *taken) {
    self->seat = seat;
    self->number = number;
    self->limit = limit;
    self->taken = taken;
    start(self, work);
}

void threads_share_a_queue(int pairs, uint64_t items) {
    fak_c_seat seats[2 * MOST_PAIRS] = {0};
    worker producers[MOST_PAIRS], consumers[MOST_PAIRS];
    uint64_t total = (uint64_t)pairs * items;
    uint64_t *taken = calloc(total, sizeof *taken);
    tickets = total;
    CHECK(pairs >= 1 && pairs <= MOST_PAIRS && taken != NULL);
    CHECK(fak_c_open(seats, 2 * (size_t)pairs, CELLS, LONG_STINT) == FAK_C_OK);
    for (int i = 0; i < pairs; i++) {
        start_with(&producers[i], produce, &seats[i], (uint64_t)i, items, NULL);
        start_with(&consumers[i], consume, &seats[pairs + i], 0, items, taken);
    }
    CHECK(join_all(producers, pairs) == total && join_all(consumers, pairs) == total);
    check_order(producers, pairs, taken, 0, total);
    for (int i = 0; i < 2 * pairs; i++)
        CHECK(fak_c_leave(&seats[i]) == FAK_C_OK);
    free(taken);
}

void a_shut_queue_is_drained(uint64_t items) {
    enum { PAIRS = 2, MOST_MISSES = 1000000 };
    fak_c_seat seats[2 * PAIRS + 1] = {0};
    worker producers[PAIRS], consumers[PAIRS], self = {.seat = &seats[2 * PAIRS]};
    uint64_t put, ticket = 0, misses = 0;
    bool was_open = false;
    uint64_t *taken = calloc(PAIRS * items, sizeof *taken);
    tickets = PAIRS * items;
    CHECK(taken != NULL && fak_c_open(seats, 2 * PAIRS + 1, CELLS, LONG_STINT) == FAK_C_OK);
    for (int i = 0; i < PAIRS; i++) {
        start_with(&producers[i], produce, &seats[i], (uint64_t)i, items, NULL);
        start_with(&consumers[i], consume, &seats[PAIRS + i], 0, UINT64_MAX, taken);
    }
    self.taken = taken;
    /* On a busy machine the consumers may leave nothing for this thread: then it shuts the queue without its share. */
    while (self.count < items / 100 && misses < MOST_MISSES) {
        if (take_one(&self)) {
            misses = 0;
        } else {
            misses++;
            sched_yield();
        }
    }
    CHECK(fak_c_shut(self.seat, &was_open) == FAK_C_OK && was_open);
    put = join_all(producers, PAIRS);
    CHECK(join_all(consumers, PAIRS) + self.count == put);
    CHECK(fak_c_claim_delete(self.seat, &ticket) == FAK_C_EMPTY);
    CHECK(fak_c_claim_insert(self.seat, 1, &ticket) == FAK_C_CLOSED);
    check_order(producers, PAIRS, taken, 0, put);
    for (int i = 0; i <= 2 * PAIRS; i++)
        CHECK(fak_c_leave(&seats[i]) == FAK_C_OK);
    free(taken);
}
