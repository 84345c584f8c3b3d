/* Threads that share a queue by bursts and single calls. What is put and what is taken is noted under its ticket. Each item must be there
 * once, under the ticket that its burst returned, and those of each producer in the order in which it inserted them. */
#include "workers.h"

#include <sched.h>

enum { MOST_THREADS = 2 * MOST_PAIRS, WIDTH = 8 };

static uint64_t tickets; /* how many may be drawn */

/* A drawn number of items, from 1 to one more than the width, and no more than the limit allows. */
static uint64_t length_of_burst(worker *self) {
    uint64_t length, most = self->limit - self->count;
    self->drawn = self->drawn * UINT64_C(6364136223846793005) + UINT64_C(1442695040888963407);
    length = 1 + (self->drawn >> 33) % (WIDTH + 1);
    return length < most ? length : most;
}

/* Notes the items that a producer has put under `count` tickets from this one on. */
static void note_put(worker *self, uint64_t ticket, uint64_t count) {
    CHECK(ticket >= self->next && ticket + count <= tickets);
    for (uint64_t i = 0; i < count; i++)
        self->put[ticket + i] = item_of(self, i);
    self->next = ticket + count;
    self->count += count;
}

/* Inserts by one burst what there is room for. False if the queue is shut. */
static bool put_burst(worker *self) {
    uint64_t items[WIDTH + 1], ticket = 0, count = 0, left = 99, n = length_of_burst(self);
    int32_t code;
    for (uint64_t i = 0; i < n; i++)
        items[i] = item_of(self, i);
    code = fak_c_insert_burst(self->bundle, items, n, &ticket, &count);
    if (code == FAK_C_CLOSED)
        return false;
    if (code == FAK_C_FULL) {
        sched_yield();
        return true;
    }
    CHECK(code == FAK_C_OK || code == FAK_C_NOT_YET);
    CHECK(count >= 1 && count <= n && count <= WIDTH);
    while (code == FAK_C_NOT_YET) {
        sched_yield();
        code = fak_c_try_fill_burst(self->bundle, &left);
        CHECK(code == FAK_C_OK ? left == 0 : code == FAK_C_NOT_YET && left >= 1 && left <= count);
    }
    note_put(self, ticket, count);
    return true;
}

/* Inserts one item by single calls, if there is room. False if the queue is shut. */
static bool put_one(worker *self) {
    uint64_t ticket = 0;
    int32_t code = fak_c_insert(self->seat, item_of(self, 0), &ticket);
    if (code == FAK_C_CLOSED)
        return false;
    if (code == FAK_C_FULL) {
        sched_yield();
        return true;
    }
    while (code == FAK_C_NOT_YET) {
        sched_yield();
        code = fak_c_try_fill(self->seat);
    }
    CHECK(code == FAK_C_OK);
    note_put(self, ticket, 1);
    return true;
}

/* Inserts up to the limit, or until the queue is shut. */
static void *produce(void *argument) {
    worker *self = argument;
    while (self->count < self->limit && (self->bundle != NULL ? put_burst(self) : put_one(self))) {
    }
    return NULL;
}

/* Takes out by one burst what there is. False if the queue is empty. */
static bool take_burst(worker *self) {
    uint64_t items[WIDTH + 1] = {0}, ticket = 0, count = 0, taken = 0, more = 0, left = 0, n = length_of_burst(self);
    int32_t code = fak_c_delete_burst(self->bundle, items, n, &ticket, &count, &taken);
    if (code == FAK_C_EMPTY)
        return false;
    CHECK(code == FAK_C_OK ? taken == count : code == FAK_C_NOT_YET && taken < count);
    CHECK(count >= 1 && count <= n && count <= WIDTH && ticket + count <= tickets);
    for (uint64_t round = 0; code == FAK_C_NOT_YET; round++) {
        sched_yield();
        /* With one place less than items are left, as many, or one more. */
        code = fak_c_try_take_burst(self->bundle, items + taken, count - taken - 1 + round % 3, &more, &left);
        taken += more;
        CHECK((code == FAK_C_OK ? left == 0 : code == FAK_C_NOT_YET && left >= 1) && taken + left == count);
    }
    for (uint64_t i = 0; i < count; i++)
        self->taken[ticket + i] = items[i];
    self->count += count;
    return true;
}

/* Takes one item out by single calls. False if the queue is empty. */
static bool take_one(worker *self) {
    uint64_t ticket = 0, item = 0;
    int32_t code = fak_c_delete(self->seat, &ticket, &item);
    if (code == FAK_C_EMPTY)
        return false;
    while (code == FAK_C_NOT_YET) {
        sched_yield();
        code = fak_c_try_take(self->seat, &item);
    }
    CHECK(code == FAK_C_OK && ticket < tickets);
    self->taken[ticket] = item;
    self->count++;
    return true;
}

/* Takes out up to the limit, or until the queue is shut and drained. Only a consumer that has a seat asks for that. */
static void *consume(void *argument) {
    worker *self = argument;
    bool is_drained = false;
    while (self->count < self->limit && !is_drained) {
        if (self->bundle != NULL ? take_burst(self) : take_one(self))
            continue;
        CHECK(self->seat == NULL || fak_c_drained(self->seat, &is_drained) == FAK_C_OK);
        sched_yield();
    }
    return NULL;
}

/* Under each ticket from `first` on is what was put there, and the items of each producer are in its order. */
static void check_taken_as_put(const worker *producers, int count, uint64_t first, uint64_t total) {
    for (uint64_t ticket = first; ticket < first + total; ticket++)
        CHECK(producers[0].taken[ticket] == producers[0].put[ticket]);
    check_order(producers, count, producers[0].taken, first, total);
}

/* Notes for this many tickets. */
static void make_notes(worker *workers, int count, uint64_t all_tickets) {
    tickets = all_tickets;
    workers[0].put = calloc(tickets, sizeof(uint64_t));
    workers[0].taken = calloc(tickets, sizeof(uint64_t));
    CHECK(workers[0].put != NULL && workers[0].taken != NULL);
    for (int i = 1; i < count; i++) {
        workers[i].put = workers[0].put;
        workers[i].taken = workers[0].taken;
    }
}

static void free_notes(worker *workers) {
    free(workers[0].put);
    free(workers[0].taken);
}

static void leave_all(fak_c_seat *handles, int n) {
    for (int i = 0; i < n; i++)
        CHECK(fak_c_leave(&handles[i]) == FAK_C_OK);
}

/* This many producers of as many items each, and then as many consumers. Half of each make bursts, and the others single calls; a pair
 * makes only bursts. The bundle or the seat of each worker is at its own place. */
static void place_workers(worker *workers, int pairs, uint64_t items, fak_c_seat *seats, fak_c_seat *bundles) {
    for (int i = 0; i < 2 * pairs; i++) {
        bool is_single = i < pairs ? i % 2 == 1 : (i - pairs) / 2 % 2 == 1;
        workers[i].seat = is_single ? &seats[i] : NULL;
        workers[i].bundle = is_single ? NULL : &bundles[i];
        workers[i].number = (uint64_t)(i % pairs);
        workers[i].limit = items;
    }
}

static void start_all(worker *workers, int count, void *(*work)(void *)) {
    for (int i = 0; i < count; i++) {
        workers[i].drawn = 2 * workers[i].number + (work == consume);
        start(&workers[i], work);
    }
}

void threads_share_a_queue_by_bursts(int pairs, uint64_t items) {
    static const uint64_t sizes[] = {3, WIDTH, 64};
    fak_c_seat seats[MOST_THREADS] = {0}, bundles[MOST_THREADS] = {0};
    worker workers[MOST_THREADS];
    size_t n = 2 * (size_t)pairs;
    uint64_t total = (uint64_t)pairs * items;
    CHECK(pairs >= 1 && pairs <= MOST_PAIRS);
    for (size_t i = 0; i < sizeof sizes / sizeof *sizes; i++) {
        make_notes(workers, 2 * pairs, total);
        CHECK(fak_c_open_bundles(seats, n, bundles, n, WIDTH, sizes[i], LONG_STINT) == FAK_C_OK);
        place_workers(workers, pairs, items, seats, bundles);
        start_all(workers, pairs, produce);
        start_all(workers + pairs, pairs, consume);
        CHECK(join_all(workers, pairs) == total && join_all(workers + pairs, pairs) == total);
        check_taken_as_put(workers, pairs, 0, total);
        leave_all(seats, 2 * pairs);
        leave_all(bundles, 2 * pairs);
        free_notes(workers);
    }
}

/* ---- A queue that is shut ---- */

enum { DRAIN_PAIRS = 2, DRAIN_CELLS = 64, MOST_MISSES = 1000000 };

/* Takes out this many items by single calls. On a busy machine the consumers may leave nothing for this thread: then it takes fewer. */
static void take_some(worker *self, uint64_t items) {
    for (uint64_t misses = 0; self->count < items && misses < MOST_MISSES;) {
        if (take_one(self)) {
            misses = 0;
        } else {
            misses++;
            sched_yield();
        }
    }
}

void a_shut_queue_is_drained_by_bursts(uint64_t items) {
    fak_c_seat seats[DRAIN_PAIRS + 1] = {0}, bundles[2 * DRAIN_PAIRS] = {0};
    worker workers[2 * DRAIN_PAIRS + 1] = {{0}}, *self = &workers[2 * DRAIN_PAIRS];
    uint64_t put, ticket = 99, count = 99;
    int64_t cells = 99;
    bool is_shut = false;
    make_notes(workers, 2 * DRAIN_PAIRS + 1, DRAIN_PAIRS * items);
    CHECK(fak_c_open_bundles(seats, DRAIN_PAIRS + 1, bundles, 2 * DRAIN_PAIRS, WIDTH, DRAIN_CELLS, LONG_STINT) == FAK_C_OK);
    place_workers(workers, DRAIN_PAIRS, items, seats, bundles);
    for (int i = 0; i < 2 * DRAIN_PAIRS; i++) {
        workers[i].bundle = &bundles[i];
        workers[i].seat = i < DRAIN_PAIRS ? NULL : &seats[i - DRAIN_PAIRS];
        workers[i].limit = i < DRAIN_PAIRS ? items : UINT64_MAX;
    }
    self->seat = &seats[DRAIN_PAIRS];
    start_all(workers, DRAIN_PAIRS, produce);
    start_all(workers + DRAIN_PAIRS, DRAIN_PAIRS, consume);
    take_some(self, items / 100);
    CHECK(fak_c_shut(self->seat, &is_shut) == FAK_C_OK && is_shut);
    put = join_all(workers, DRAIN_PAIRS);
    CHECK(join_all(workers + DRAIN_PAIRS, DRAIN_PAIRS) + self->count == put);
    CHECK(fak_c_insert_burst(&bundles[0], &put, 1, &ticket, &count) == FAK_C_CLOSED && ticket == 99 && count == 99);
    CHECK(fak_c_in_use(self->seat, &cells, &is_shut) == FAK_C_OK && cells == 0 && is_shut);
    check_taken_as_put(workers, DRAIN_PAIRS, 0, put);
    leave_all(seats, DRAIN_PAIRS + 1);
    leave_all(bundles, 2 * DRAIN_PAIRS);
    free_notes(workers);
}

/* ---- A burst that is left waiting ---- */

enum { OTHERS = 2, STAND_CELLS = 1024, STOPPED = 4, PASSING = (STAND_CELLS - STOPPED - 2) / OTHERS, PASSED = OTHERS * PASSING };

/* Two pairs of workers, and handles of this thread for the burst that waits, for what stops it, and for all else. */
static fak_c_seat stand_seats[2 * OTHERS + 2], stand_bundles[2 * OTHERS + 2];
static fak_c_seat *const stopped = &stand_bundles[2 * OTHERS], *const second = &stand_bundles[2 * OTHERS + 1];
static fak_c_seat *const stops = &stand_seats[2 * OTHERS], *const single = &stand_seats[2 * OTHERS + 1];
static worker others[2 * OTHERS + 1], *const this_thread = &others[2 * OTHERS];

/* The first ticket of the workers' items is this one. */
static void open_for_a_stop(uint64_t first) {
    make_notes(others, 2 * OTHERS + 1, first + PASSED);
    CHECK(fak_c_open_bundles(stand_seats, 2 * OTHERS + 2, stand_bundles, 2 * OTHERS + 2, WIDTH, STAND_CELLS, LONG_STINT) == FAK_C_OK);
    place_workers(others, OTHERS, PASSING, stand_seats, stand_bundles);
    this_thread->seat = single;
    this_thread->bundle = second;
    this_thread->limit = UINT64_MAX;
    this_thread->count = 0;
}

static void end_a_stop(uint64_t first) {
    check_taken_as_put(others, OTHERS, first, PASSED);
    leave_all(stand_seats, 2 * OTHERS + 2);
    leave_all(stand_bundles, 2 * OTHERS + 2);
    free_notes(others);
}

/* The workers put all that has cells of its own in this round, and take out all except `less` of it. */
static void others_put(void) {
    start_all(others, OTHERS, produce);
    CHECK(join_all(others, OTHERS) == PASSED);
}

static void others_take(uint64_t less) {
    for (int i = 0; i < OTHERS; i++)
        others[OTHERS + i].limit = PASSING - less / OTHERS;
    start_all(others + OTHERS, OTHERS, consume);
    CHECK(join_all(others + OTHERS, OTHERS) == PASSED - less);
}

/* A burst of deletions has claimed items of which the first is not yet filled. The others put and take out what comes after it. */
static void a_burst_of_deletions_waits(void) {
    uint64_t items[STOPPED] = {0}, ticket = 99, count = 99, taken = 99, left = 99;
    open_for_a_stop(STOPPED + 1);
    CHECK(fak_c_claim_insert(stops, 100, &ticket) == FAK_C_OK && ticket == 0);
    for (uint64_t i = 1; i <= STOPPED; i++)
        CHECK(fak_c_insert(single, 100 + i, &ticket) == FAK_C_OK && ticket == i);
    CHECK(fak_c_delete_burst(stopped, items, STOPPED, &ticket, &count, &taken) == FAK_C_NOT_YET);
    CHECK(ticket == 0 && count == STOPPED && taken == 0);
    others_put();
    others_take(0);
    CHECK(fak_c_try_take_burst(stopped, items, STOPPED, &taken, &left) == FAK_C_NOT_YET && taken == 0 && left == STOPPED);
    CHECK(fak_c_try_fill(stops) == FAK_C_OK);
    CHECK(fak_c_try_take_burst(stopped, items, STOPPED, &taken, &left) == FAK_C_OK && taken == STOPPED && left == 0);
    for (uint64_t i = 0; i < STOPPED; i++)
        CHECK(items[i] == 100 + i);
    /* The item of ticket 4 was there for the others, so one of theirs is left. */
    CHECK(take_one(this_thread) && !take_one(this_thread) && others[0].taken[STOPPED] == 100 + STOPPED);
    end_a_stop(STOPPED + 1);
}

/* A burst of insertions has claimed cells of which the first has an item that was claimed, and not yet taken. The others put what has
 * other cells. Once a second burst has claimed the items of the first, they take out what comes after them. */
static void a_burst_of_insertions_waits(void) {
    uint64_t items[STOPPED] = {100, 101, 102, 103}, ticket = 99, item = 99, count = 99, taken = 99, left = 99;
    open_for_a_stop(STAND_CELLS + STOPPED);
    for (uint64_t i = 0; i < STAND_CELLS; i++) {
        CHECK(fak_c_insert(single, i, &ticket) == FAK_C_OK && ticket == i);
        if (i == 0)
            CHECK(fak_c_claim_delete(stops, &ticket) == FAK_C_OK && ticket == 0);
        else
            CHECK(fak_c_delete(single, &ticket, &item) == FAK_C_OK && ticket == i && item == i);
    }
    CHECK(fak_c_insert_burst(stopped, items, STOPPED, &ticket, &count) == FAK_C_NOT_YET && ticket == STAND_CELLS && count == STOPPED);
    others_put();
    CHECK(fak_c_delete_burst(second, items, STOPPED, &ticket, &count, &taken) == FAK_C_NOT_YET);
    CHECK(ticket == STAND_CELLS && count == STOPPED && taken == 0);
    others_take(STOPPED);
    CHECK(fak_c_try_fill_burst(stopped, &left) == FAK_C_NOT_YET && left == STOPPED);
    CHECK(fak_c_try_take(stops, &item) == FAK_C_OK && item == 0);
    CHECK(fak_c_try_fill_burst(stopped, &left) == FAK_C_OK && left == 0);
    CHECK(fak_c_try_take_burst(second, items, STOPPED, &taken, &left) == FAK_C_OK && taken == STOPPED && left == 0);
    for (uint64_t i = 0; i < STOPPED; i++)
        CHECK(items[i] == 100 + i);
    while (this_thread->count < STOPPED)
        CHECK(take_burst(this_thread));
    CHECK(!take_burst(this_thread) && this_thread->count == STOPPED);
    end_a_stop(STAND_CELLS + STOPPED);
}

void a_waiting_burst_stops_nobody(void) {
    a_burst_of_deletions_waits();
    a_burst_of_insertions_waits();
}

/* ---- Memory that is handed over ---- */

enum { WORDS = 16, LOT = 4 };

typedef struct {
    pthread_t thread;
    fak_c_seat *bundle;
    uint64_t items;
} sender;

/* Memory whose words are all this number. */
static uint64_t filled_memory(uint64_t number) {
    uint64_t *words = malloc(WORDS * sizeof *words);
    CHECK(words != NULL);
    for (int i = 0; i < WORDS; i++)
        words[i] = number;
    FAK_C_GIVES(words);
    return (uintptr_t)words;
}

static void check_number(uint64_t at, uint64_t number) {
    uint64_t *words = (uint64_t *)(uintptr_t)at;
    FAK_C_GETS(words);
    for (int i = 0; i < WORDS; i++)
        CHECK(words[i] == number);
    free(words);
}

/* Inserts a lot of items, by as many bursts as that needs. */
static void put_lot(fak_c_seat *bundle, const uint64_t *items) {
    uint64_t ticket = 0, count = 0, left = 0;
    for (uint64_t put = 0; put < LOT;) {
        int32_t code = fak_c_insert_burst(bundle, items + put, LOT - put, &ticket, &count);
        if (code == FAK_C_FULL) {
            sched_yield();
            continue;
        }
        while (code == FAK_C_NOT_YET)
            code = fak_c_try_fill_burst(bundle, &left);
        CHECK(code == FAK_C_OK);
        put += count;
    }
}

static void *send(void *argument) {
    sender *self = argument;
    uint64_t items[LOT];
    for (uint64_t item = 0; item < self->items; item += LOT) {
        for (uint64_t i = 0; i < LOT; i++)
            items[i] = filled_memory(item + i);
        put_lot(self->bundle, items);
    }
    return NULL;
}

void memory_is_handed_over_by_bursts(uint64_t items) {
    fak_c_seat seat = {0}, bundles[2] = {0};
    sender self = {.bundle = &bundles[0], .items = items / LOT * LOT};
    CHECK(fak_c_open_bundles(&seat, 0, bundles, 2, LOT, 6, LONG_STINT) == FAK_C_OK);
    CHECK(pthread_create(&self.thread, NULL, send, &self) == 0);
    for (uint64_t item = 0; item < self.items;) {
        uint64_t at[LOT] = {0}, ticket = 0, count = 0, taken = 0, more = 0, left = 0;
        int32_t code = fak_c_delete_burst(&bundles[1], at, LOT, &ticket, &count, &taken);
        if (code == FAK_C_EMPTY) {
            sched_yield();
            continue;
        }
        for (; code == FAK_C_NOT_YET; taken += more)
            code = fak_c_try_take_burst(&bundles[1], at + taken, LOT - taken, &more, &left);
        CHECK(code == FAK_C_OK && taken == count);
        for (uint64_t i = 0; i < count; i++)
            check_number(at[i], item++);
    }
    CHECK(pthread_join(self.thread, NULL) == 0);
    leave_all(bundles, 2);
}
