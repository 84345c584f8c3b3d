/* What the parts of an insertion and a deletion add to their atomic steps, on one thread; bench/parts builds and runs it.
 *
 * Each row does what the row before it does, and one part more. The words and the slots lie as the queue's do. The last row calls as
 * the program `bench_objects` does, in which a put calls an insertion and a get a deletion. */
#include <sched.h>
#include <stdatomic.h>
#include <stdbool.h>
#include <stdint.h>
#include <stdio.h>
#include <stdlib.h>
#include <time.h>

enum { CELLS = 1024, UPPER = 16, LOWER = 32, DRAWS_IN = 48, DRAWS_OUT = 64, TURNS = 80, WORDS = TURNS + CELLS + 16, MOST_ROUNDS = 1000 };
static const uint64_t BIAS = UINT64_C(1) << 62, SHUT = UINT64_C(1) << 63;

typedef struct {
    bool is_filled;
    uint64_t item;
} slot;

/* What a seat keeps between its calls: how many tickets are left, both counts as it left them, and whether it pauses. */
typedef struct {
    uint64_t left, upper, lower;
    bool is_contended, pauses_in_calls;
} seat;

typedef struct {
    _Atomic uint64_t *words;
    slot *slots;
    uint64_t size, inverse;
    seat seat;
} queue;

typedef struct {
    uint64_t cell, round;
} place;

/* The result of a call, in memory. The item comes back from an insertion that is refused. */
typedef struct {
    enum { DONE, WORN, REFUSED } kind;
    uint64_t ticket, item;
} answer;

enum part { STEPS, BOUNDS, PLACES, ITEMS, SEATS, ANSWERS, CALLS, PARTS };

/* The cell and the round of a ticket: by one multiplication, or as the loop counts them if the part is left out. */
static inline place place_of(const queue *q, uint64_t ticket, uint64_t cell, enum part part) {
    if (part < PLACES)
        return (place){cell, 0};
    uint64_t round = (uint64_t)(((unsigned __int128)(ticket + 1) * q->inverse) >> 64);
    return (place){ticket - round * q->size, round};
}

/* If a test has found that others changed a count, a seat leaves the queue to them. With one thread that never happens. */
static inline void pause_in_call(seat *s) {
    if (s->pauses_in_calls && s->is_contended) {
        s->is_contended = false;
        sched_yield();
    }
}

static inline void saw(seat *s, uint64_t found, uint64_t *expected) {
    if (found != *expected) {
        s->is_contended = true;
        *expected = found;
    }
}

static inline bool has_room(const queue *q, uint64_t upper, enum part part) {
    return part < BOUNDS || (upper < SHUT && upper < BIAS + q->size);
}

static inline bool insert(queue *q, uint64_t item, uint64_t cell, uint64_t *ticket, enum part part) {
    if (part >= SEATS) {
        if (q->seat.left == 0)
            return false;
        pause_in_call(&q->seat);
    }
    uint64_t tested = atomic_load(&q->words[UPPER]);
    if (part >= SEATS)
        saw(&q->seat, tested, &q->seat.upper);
    if (!has_room(q, tested, part))
        return false;
    if (!has_room(q, atomic_fetch_add(&q->words[UPPER], 1), part))
        return false;
    *ticket = atomic_fetch_add(&q->words[DRAWS_IN], 1);
    if (part >= SEATS) {
        q->seat.left--;
        q->seat.upper++;
        q->seat.lower++;
    }
    place at = place_of(q, *ticket, cell, part);
    uint64_t found = atomic_load(&q->words[TURNS + at.cell]);
    if (part >= PLACES && found != 2 * at.round)
        return false;
    if (part >= ITEMS) {
        slot before = q->slots[at.cell];
        q->slots[at.cell] = (slot){true, item};
        if (before.is_filled)
            return false;
    }
    atomic_store(&q->words[TURNS + at.cell], part >= PLACES ? 2 * at.round + 1 : found + 1);
    atomic_fetch_add(&q->words[LOWER], 1);
    return true;
}

static inline bool delete(queue *q, uint64_t *item, uint64_t cell, uint64_t *ticket, enum part part) {
    if (part >= SEATS) {
        if (q->seat.left == 0)
            return false;
        pause_in_call(&q->seat);
    }
    uint64_t tested = atomic_load(&q->words[LOWER]);
    if (part >= SEATS)
        saw(&q->seat, tested, &q->seat.lower);
    if (part >= BOUNDS && tested <= BIAS)
        return false;
    uint64_t claimed = atomic_fetch_sub(&q->words[LOWER], 1);
    if (part >= BOUNDS && claimed <= BIAS)
        return false;
    *ticket = atomic_fetch_add(&q->words[DRAWS_OUT], 1);
    if (part >= SEATS) {
        q->seat.left--;
        q->seat.upper--;
        q->seat.lower--;
    }
    place at = place_of(q, *ticket, cell, part);
    uint64_t found = atomic_load(&q->words[TURNS + at.cell]);
    if (part >= PLACES && found != 2 * at.round + 1)
        return false;
    if (part >= ITEMS) {
        slot taken = q->slots[at.cell];
        q->slots[at.cell] = (slot){false, 0};
        if (!taken.is_filled)
            return false;
        *item = taken.item;
    }
    atomic_store(&q->words[TURNS + at.cell], part >= PLACES ? 2 * at.round + 2 : found + 1);
    atomic_fetch_sub(&q->words[UPPER], 1);
    return true;
}

/* An insertion as a function of its own, with its result in memory. */
__attribute__((noinline)) static void insert_for(answer *found, queue *q, uint64_t item) {
    uint64_t ticket = 0;
    if (insert(q, item, 0, &ticket, SEATS))
        *found = (answer){DONE, ticket, 0};
    else
        *found = (answer){q->seat.left == 0 ? WORN : REFUSED, 0, item};
}

__attribute__((noinline)) static void delete_for(answer *found, queue *q) {
    uint64_t ticket = 0, item = 0;
    if (delete(q, &item, 0, &ticket, SEATS))
        *found = (answer){DONE, ticket, item};
    else
        *found = (answer){q->seat.left == 0 ? WORN : REFUSED, 0, 0};
}

/* A put that waits while there is no room, as a function of its own. */
__attribute__((noinline)) static bool put(queue *q, uint64_t item, uint64_t *ticket) {
    for (;;) {
        answer found = {WORN, 0, 0};
        insert_for(&found, q, item);
        *ticket = found.ticket;
        if (found.kind != REFUSED)
            return found.kind == DONE;
        item = found.item;
        sched_yield();
    }
}

__attribute__((noinline)) static bool get(queue *q, uint64_t *item, uint64_t *ticket) {
    for (;;) {
        answer found = {WORN, 0, 0};
        delete_for(&found, q);
        *ticket = found.ticket;
        *item = found.item;
        if (found.kind != REFUSED)
            return found.kind == DONE;
        sched_yield();
    }
}

/* Passes one item, and returns whether it came out. */
static inline bool pass_one(queue *q, uint64_t *item, uint64_t cell, uint64_t *in, uint64_t *out, enum part part) {
    if (part == CALLS)
        return put(q, *item, in) && get(q, item, out);
    if (part == ANSWERS) {
        answer found = {WORN, 0, 0};
        insert_for(&found, q, *item);
        *in = found.ticket;
        if (found.kind != DONE)
            return false;
        delete_for(&found, q);
        *out = found.ticket;
        *item = found.item;
        return found.kind == DONE;
    }
    return insert(q, *item, cell, in, part) && delete(q, item, cell, out, part);
}

/* Passes this many items, one after the other. Returns how many came out under the ticket of their insertion. */
static inline uint64_t pass(queue *q, uint64_t items, enum part part) {
    uint64_t passed = 0, cell = 0;
    for (uint64_t i = 0; i < items; i++) {
        uint64_t in = 0, out = 0, item = i;
        if (!pass_one(q, &item, cell, &in, &out, part))
            return passed;
        passed += in == out && item == i;
        cell = cell + 1 < CELLS ? cell + 1 : 0;
    }
    return passed;
}

#define ROW(name, part) __attribute__((noinline)) static uint64_t name(queue *q, uint64_t items) { return pass(q, items, part); }
ROW(pass_steps, STEPS)
ROW(pass_bounds, BOUNDS)
ROW(pass_places, PLACES)
ROW(pass_items, ITEMS)
ROW(pass_seats, SEATS)
ROW(pass_answers, ANSWERS)
ROW(pass_calls, CALLS)

static const struct {
    const char *name;
    uint64_t (*passes)(queue *q, uint64_t items);
} rows[PARTS] = {
    {"the 12 steps alone", pass_steps},
    {"and each count next to its bound", pass_bounds},
    {"and each ticket's cell and round", pass_places},
    {"and the item, into its slot and out", pass_items},
    {"and what the seat keeps", pass_seats},
    {"and two calls, with results in memory", pass_answers},
    {"and the two calls that wait, outside", pass_calls},
};

static double now(void) {
    struct timespec time;
    clock_gettime(CLOCK_MONOTONIC, &time);
    return (double)time.tv_sec * 1e9 + (double)time.tv_nsec;
}

/* Memory that no other line of it shares. */
static void *reserve(size_t size) {
    void *memory = aligned_alloc(128, (size + 127) / 128 * 128);
    if (memory == NULL)
        exit(1);
    return memory;
}

static queue opened(uint64_t items) {
    queue q = {.words = reserve(WORDS * sizeof *q.words), .slots = reserve(CELLS * sizeof *q.slots)};
    for (int i = 0; i < WORDS; i++)
        atomic_init(&q.words[i], 0);
    for (int i = 0; i < CELLS; i++)
        q.slots[i] = (slot){false, 0};
    atomic_init(&q.words[UPPER], BIAS);
    atomic_init(&q.words[LOWER], BIAS);
    q.size = CELLS;
    q.inverse = UINT64_MAX / CELLS;
    q.seat = (seat){.left = 2 * items + 1, .upper = BIAS, .lower = BIAS, .pauses_in_calls = true};
    return q;
}

/* The nanoseconds of an item. */
static double once(int row, uint64_t items) {
    queue q = opened(items);
    double begun = now();
    uint64_t passed = rows[row].passes(&q, items);
    double ended = now();
    free(q.words);
    free(q.slots);
    if (passed != items) {
        puts("an item is lost");
        exit(1);
    }
    return (ended - begun) / (double)items;
}

static int by_size(const void *a, const void *b) {
    double x = *(const double *)a, y = *(const double *)b;
    return x < y ? -1 : x > y;
}

int main(int count, char **arguments) {
    static double times[PARTS][MOST_ROUNDS];
    int rounds = count > 1 ? atoi(arguments[1]) : 101;
    long items = count > 2 ? atol(arguments[2]) : 40000;
    if (rounds < 1 || rounds > MOST_ROUNDS || items < 1)
        return 2;
    for (int round = 0; round < rounds; round++)
        for (int row = 0; row < PARTS; row++)
            times[row][round] = once(row, (uint64_t)items);
    puts("Nanoseconds an item, 1,024 cells: the median, the best and the worst");
    for (int row = 0; row < PARTS; row++) {
        qsort(times[row], (size_t)rounds, sizeof(double), by_size);
        printf("%-38s %4.0f (%.0f, %.0f)\n", rows[row].name, times[row][rounds / 2], times[row][0], times[row][rounds - 1]);
    }
    return 0;
}
