/* The queues of the model on this machine: the same accesses, made by threads that have a processor each. */
#include <stdalign.h>
#include <stdlib.h>
#include <unistd.h>
#include "model.h"
#include "threads.h"
enum { CELLS = 1024, ITEMS = 40000, LONGEST = 6, BIAS = 1 << 20 };

struct alone { alignas(ALONE_IN_A_LINE) _Atomic uint64_t word; };

static int threads_in_all;
static _Thread_local int own;
static _Atomic uint64_t sum_of_items;

static void wait_here(int round) {
    for (int i = 0; i < 1 << (round < LONGEST ? round : LONGEST); i++) MOMENT();
}

/* This queue. */

static struct alone upper, lower, draws_in, draws_out;
static _Atomic uint64_t turns[CELLS];
static struct { uint64_t is_some, item; } slots[CELLS];

static void open_additions(void) {
    atomic_store(&upper.word, BIAS);
    atomic_store(&lower.word, BIAS);
    atomic_store(&draws_in.word, 0);
    atomic_store(&draws_out.word, 0);
    for (int i = 0; i < CELLS; i++) atomic_store(&turns[i], 0);
}

static int allows(uint64_t found, int puts) { return puts ? found < BIAS + CELLS : found > BIAS; }

static void claim(_Atomic uint64_t *count, int puts) {
    uint64_t one = puts ? 1 : UINT64_MAX;
    for (int round = 0;; round++) {
        if (allows(atomic_load(count), puts)) {
            if (allows(atomic_fetch_add(count, one), puts)) return;
            atomic_fetch_sub(count, one);
        }
        wait_here(round);
    }
}

static void await_turn(_Atomic uint64_t *turn, uint64_t wanted) {
    for (int round = 0; atomic_load(turn) != wanted; round++) wait_here(round);
}

static void put_here(uint64_t item) {
    claim(&upper.word, 1);
    uint64_t ticket = atomic_fetch_add(&draws_in.word, 1), cell = ticket % CELLS, turn = ticket / CELLS * 2;
    await_turn(&turns[cell], turn);
    slots[cell].is_some = 1;
    slots[cell].item = item;
    atomic_store(&turns[cell], turn + 1);
    atomic_fetch_add(&lower.word, 1);
}

static uint64_t get_here(void) {
    claim(&lower.word, 0);
    uint64_t ticket = atomic_fetch_add(&draws_out.word, 1), cell = ticket % CELLS, turn = ticket / CELLS * 2 + 1;
    await_turn(&turns[cell], turn);
    slots[cell].is_some = 0;
    uint64_t item = slots[cell].item;
    atomic_store(&turns[cell], turn + 1);
    atomic_fetch_sub(&upper.word, 1);
    return item;
}

/* The ring by compare-and-swap. */

static struct { _Atomic uint64_t turn; uint64_t item; } ring[CELLS];

static void open_swaps(void) {
    open_additions();
    for (uint64_t i = 0; i < CELLS; i++) atomic_store(&ring[i].turn, i);
}

static uint64_t draw_here(_Atomic uint64_t *counter, uint64_t ahead) {
    uint64_t ticket = atomic_load_explicit(counter, memory_order_relaxed);
    for (int round = 0;;) {
        int64_t early = (int64_t)(atomic_load_explicit(&ring[ticket % CELLS].turn, memory_order_acquire) - (ticket + ahead));
        if (!early && atomic_compare_exchange_weak_explicit(counter, &ticket, ticket + 1, memory_order_relaxed, memory_order_relaxed))
            return ticket;
        if (early < 0) wait_here(round++);
        if (early) ticket = atomic_load_explicit(counter, memory_order_relaxed);
    }
}

static void put_by_swaps(uint64_t item) {
    uint64_t ticket = draw_here(&draws_in.word, 0);
    ring[ticket % CELLS].item = item;
    atomic_store_explicit(&ring[ticket % CELLS].turn, ticket + 1, memory_order_release);
}

static uint64_t get_by_swaps(void) {
    uint64_t ticket = draw_here(&draws_out.word, 1), item = ring[ticket % CELLS].item;
    atomic_store_explicit(&ring[ticket % CELLS].turn, ticket + CELLS, memory_order_release);
    return item;
}

/* The ring under a lock. */

static struct alone lock;
static struct { alignas(ALONE_IN_A_LINE) uint64_t first, count; } ends;
static uint64_t held_items[CELLS];
static struct { alignas(ALONE_IN_A_LINE) _Atomic int behind, is_granted; } nodes[MOST_THREADS];

static void open_ring(void) {
    atomic_store(&lock.word, 0);
    ends.first = ends.count = 0;
}

static void take_plain(void) {
    for (int round = 0;; round++) {
        if (!atomic_load(&lock.word) && !atomic_exchange(&lock.word, 1)) return;
        wait_here(round);
    }
}

static void leave_plain(void) { atomic_store_explicit(&lock.word, 0, memory_order_release); }

static void take_fair(void) {
    atomic_store_explicit(&nodes[own].behind, 0, memory_order_relaxed);
    atomic_store_explicit(&nodes[own].is_granted, 0, memory_order_relaxed);
    uint64_t before = atomic_exchange(&lock.word, (uint64_t)own + 1);
    if (!before) return;
    atomic_store_explicit(&nodes[before - 1].behind, own + 1, memory_order_release);
    while (!atomic_load(&nodes[own].is_granted)) MOMENT();
}

static void leave_fair(void) {
    uint64_t expected = (uint64_t)own + 1;
    if (!atomic_load(&nodes[own].behind) && atomic_compare_exchange_strong(&lock.word, &expected, 0)) return;
    while (!atomic_load(&nodes[own].behind)) MOMENT();
    atomic_store_explicit(&nodes[atomic_load(&nodes[own].behind) - 1].is_granted, 1, memory_order_release);
}

static int put_at_end(uint64_t item) {
    if (ends.count == CELLS) return 0;
    held_items[(ends.first + ends.count++) % CELLS] = item;
    return 1;
}

static int get_at_end(uint64_t *item) {
    if (!ends.count) return 0;
    *item = held_items[ends.first];
    ends.first = (ends.first + 1) % CELLS;
    ends.count--;
    return 1;
}

static void put_under(void (*take)(void), void (*leave)(void), uint64_t item) {
    for (int round = 0;; round++) {
        take();
        int is_put = put_at_end(item);
        leave();
        if (is_put) return;
        wait_here(round);
    }
}

static uint64_t get_under(void (*take)(void), void (*leave)(void)) {
    for (int round = 0;; round++) {
        uint64_t item = 0;
        take();
        int is_got = get_at_end(&item);
        leave();
        if (is_got) return item;
        wait_here(round);
    }
}

static void put_fairly(uint64_t item) { put_under(take_fair, leave_fair, item); }
static uint64_t get_fairly(void) { return get_under(take_fair, leave_fair); }
static void put_plainly(uint64_t item) { put_under(take_plain, leave_plain, item); }
static uint64_t get_plainly(void) { return get_under(take_plain, leave_plain); }

static const struct native { const char *name; void (*open)(void), (*put)(uint64_t item); uint64_t (*get)(void); } natives[] = {
    { "this queue", open_additions, put_here, get_here },
    { "compare-and-swap ring", open_swaps, put_by_swaps, get_by_swaps },
    { "ring under a fair lock", open_ring, put_fairly, get_fairly },
    { "ring under a plain lock", open_ring, put_plainly, get_plainly },
};
static const struct native *native;

static void *use_native(void *number) {
    own = *(int *)number;
    uint64_t sum = 0;
    begin_as(own);
    for (uint64_t i = 1; i <= ITEMS; i++) {
        if (threads_in_all == 1 || own % 2 == 0) native->put(i);
        if (threads_in_all == 1 || own % 2 == 1) sum += native->get();
    }
    atomic_fetch_add(&sum_of_items, sum);
    return NULL;
}

static void open_native(void) {
    atomic_store(&sum_of_items, 0);
    native->open();
}

static void print_native(int threads) {
    int producers = threads == 1 ? 1 : threads / 2;
    threads_in_all = threads;
    struct spread spread = time_of(open_native, use_native, threads);
    if (atomic_load(&sum_of_items) != (uint64_t)producers * ITEMS * (ITEMS + 1) / 2) {
        fprintf(stderr, "%s: an item is lost\n", native->name);
        exit(1);
    }
    printf(" | %4.0f %4.0f %4.0f", spread.best / producers / ITEMS, spread.median / producers / ITEMS, spread.worst / producers / ITEMS);
}

void measure_here(void) {
    long processors = sysconf(_SC_NPROCESSORS_ONLN);
    printf("%-26s | %14d | %14d | %14d\n", "best, median, worst", 1, 2, 4);
    for (size_t i = 0; i < sizeof natives / sizeof *natives; i++) {
        native = &natives[i];
        printf("%-26s", native->name);
        for (int threads = 1; threads <= MOST_THREADS && threads <= processors; threads *= 2) print_native(threads);
        printf("\n");
    }
}
