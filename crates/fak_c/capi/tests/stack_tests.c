/* How much stack calls use, how much of the heap a seat and each object keep, and where calls write the memory of a seat. */
#include "stack_and_heap.h"
#include "tests.h"

#include <string.h>

enum { SEATS = 3, CELLS = 64, ROUNDS = 200, WIDTH = 32, LINE = 64 };

/* The bytes of a seat. A bundle has a block of its own; the second word of its seat points to that block. */
enum { DESK = 280, BUNDLE_AT = 8, BUNDLE = 336, LARGEST = BUNDLE };

static fak_c_seat seats[SEATS];

/* ---- Stack ---- */

static void open_queue(void) { CHECK(fak_c_open(seats, SEATS, CELLS, 1000) == FAK_C_OK); }
static void open_semaphore(void) { CHECK(fak_c_sem_open(seats, SEATS, 0, 8, 1000) == FAK_C_OK); }
static void open_room(void) { CHECK(fak_c_room_open(seats, SEATS, 8, 1000) == FAK_C_OK); }
static void open_credit(void) { CHECK(fak_c_credit_open(seats, SEATS, 8, 1000) == FAK_C_OK); }
static void open_files(void) { CHECK(fak_c_files_open(seats, SEATS, 16, 1000) == FAK_C_OK); }

/* The first handle has a bundle, and the others have seats. */
static void open_bundle(void) { CHECK(fak_c_open_bundles(seats + 1, SEATS - 1, seats, 1, WIDTH, CELLS, 1000) == FAK_C_OK); }

static void leave_all(void) {
    for (int i = 0; i < SEATS; i++)
        CHECK(fak_c_leave(&seats[i]) == FAK_C_OK);
}

/* Two seats that call by turns, often enough that one pauses. */
static void use_queue(void) {
    uint64_t ticket = 0, item = 0;
    int64_t count = 0;
    uint32_t state = 0;
    bool was_open = false;
    for (int round = 0; round < ROUNDS; round++) {
        CHECK(fak_c_insert(seats, 1, &ticket) == FAK_C_OK);
        CHECK(fak_c_pause(seats) == FAK_C_OK);
        CHECK(fak_c_delete(&seats[1], &ticket, &item) == FAK_C_OK);
    }
    CHECK(fak_c_claim_insert(seats, 1, &ticket) == FAK_C_OK);
    CHECK(fak_c_try_fill(seats) == FAK_C_OK);
    CHECK(fak_c_insert(seats, 2, &ticket) == FAK_C_OK);
    CHECK(fak_c_claim_delete(seats, &ticket) == FAK_C_OK);
    CHECK(fak_c_try_take(seats, &item) == FAK_C_OK);
    CHECK(fak_c_delete(seats, &ticket, &item) == FAK_C_OK);
    CHECK(fak_c_delete(seats, &ticket, &item) == FAK_C_EMPTY);
    CHECK(fak_c_state(seats, &state, &ticket, &item) == FAK_C_OK && fak_c_count(seats, &count) == FAK_C_OK);
    CHECK(fak_c_in_use(seats, &count, &was_open) == FAK_C_OK && fak_c_drained(seats, &was_open) == FAK_C_OK);
    CHECK(fak_c_shut(seats, &was_open) == FAK_C_OK);
    CHECK(fak_c_insert(seats, 3, &ticket) == FAK_C_CLOSED);
}

static void use_semaphore(void) {
    uint64_t item = 0;
    uint32_t state = 0;
    CHECK(fak_c_sem_claim_down(seats, 1) == FAK_C_PARKS);
    CHECK(fak_c_sem_try_park(seats) == FAK_C_OK);
    CHECK(fak_c_sem_claim_up(seats) == FAK_C_WAKES);
    CHECK(fak_c_sem_try_wake(seats, &item) == FAK_C_OK);
    CHECK(fak_c_sem_claim_up(seats) == FAK_C_OK);
    CHECK(fak_c_sem_state(seats, &state, &item) == FAK_C_OK);
}

static void use_room(void) {
    int64_t found = 0;
    uint64_t held = 0, left = 0;
    CHECK(fak_c_room_tir(seats, 8, &found) == FAK_C_OK);
    CHECK(fak_c_room_tir(seats, 8, &found) == FAK_C_FULL);
    CHECK(fak_c_room_release(seats, 8, &found) == FAK_C_OK);
    CHECK(fak_c_room_state(seats, &held, &left) == FAK_C_OK);
}

static void use_credit(void) {
    int64_t found = 0;
    uint64_t left = 0;
    CHECK(fak_c_credit_debit(seats, &found) == FAK_C_OK);
    CHECK(fak_c_credit_credit(seats, &found) == FAK_C_OK);
    CHECK(fak_c_credit_value(seats, &found, &left) == FAK_C_OK);
}

static void use_files(void) {
    int64_t count = 0;
    uint64_t inode = 0, uses = 0;
    uint32_t hold = 0;
    CHECK(fak_c_files_try_write(seats, &count) == FAK_C_OK);
    CHECK(fak_c_files_try_read(&seats[1], &count) == FAK_C_BUSY);
    CHECK(fak_c_files_set_inode(seats, 0, 1) == FAK_C_OK && fak_c_files_set_uses(seats, 0, 1) == FAK_C_OK);
    CHECK(fak_c_files_get(seats, 0, &inode, &uses) == FAK_C_OK);
    CHECK(fak_c_files_hold(seats, &hold) == FAK_C_OK);
    CHECK(fak_c_files_end(seats) == FAK_C_OK);
}

/* Bursts of both kinds that are granted, refused, and wait for the other seats. */
static void use_bundle(void) {
    uint64_t items[WIDTH] = {0}, ticket = 0, item = 0, count = 0, taken = 0, open = 0, width = 0, left = 0;
    uint32_t state = 0;
    CHECK(fak_c_delete_burst(seats, items, WIDTH, &ticket, &count, &taken) == FAK_C_EMPTY);
    CHECK(fak_c_insert_burst(seats, items, WIDTH, &ticket, &count) == FAK_C_OK && count == WIDTH);
    CHECK(fak_c_delete_burst(seats, items, WIDTH, &ticket, &count, &taken) == FAK_C_OK && taken == WIDTH);
    CHECK(fak_c_claim_insert(&seats[1], 1, &ticket) == FAK_C_OK && fak_c_insert(&seats[2], 2, &ticket) == FAK_C_OK);
    CHECK(fak_c_delete_burst(seats, items, WIDTH, &ticket, &count, &taken) == FAK_C_NOT_YET && count == 1 && taken == 0);
    CHECK(fak_c_bundle_state(seats, &state, &ticket, &open, &width, &left) == FAK_C_OK && open == 1 && width == WIDTH);
    CHECK(fak_c_try_fill(&seats[1]) == FAK_C_OK && fak_c_try_take_burst(seats, items, 1, &taken, &left) == FAK_C_OK);
    CHECK(fak_c_claim_delete(&seats[1], &ticket) == FAK_C_OK && ticket == WIDTH + 1);
    CHECK(fak_c_insert_burst(seats, items, WIDTH, &ticket, &count) == FAK_C_OK && count == WIDTH);
    CHECK(fak_c_insert_burst(seats, items, WIDTH, &ticket, &count) == FAK_C_OK && count == CELLS - WIDTH - 1);
    CHECK(fak_c_insert_burst(seats, items, WIDTH, &ticket, &count) == FAK_C_FULL);
    CHECK(fak_c_delete_burst(seats, items, 1, &ticket, &count, &taken) == FAK_C_OK);
    CHECK(fak_c_insert_burst(seats, items, 1, &ticket, &count) == FAK_C_NOT_YET && ticket == CELLS + WIDTH + 1);
    CHECK(fak_c_try_take(&seats[1], &item) == FAK_C_OK && fak_c_try_fill_burst(seats, &left) == FAK_C_OK);
}

/* ---- What of a seat's memory calls write ---- */

static void move_there_and_back(void) {
    static fak_c_seat home;
    CHECK(fak_c_move(seats, &home) == FAK_C_OK && fak_c_move(&home, seats) == FAK_C_OK);
}

/* What the calls of the first handle write: the memory of its seat, or its bundle. It has this size. */
static const unsigned char *written_by_calls(size_t size) {
    const unsigned char *desk = seats[0].at;
    CHECK(size_of(desk) == DESK);
    if (size == BUNDLE)
        memcpy(&desk, desk + BUNDLE_AT, sizeof desk);
    CHECK(size_of(desk) == size);
    return desk;
}

/* How much stack the calls of the first handle use, and a move. They change the memory of their seat, which has this size, but nothing
 * within a line of either end: so the calls of no two seats write the same line. */
static size_t depth_of_calls(void (*calls)(void), size_t size) {
    static unsigned char before[LARGEST];
    const unsigned char *desk = written_by_calls(size);
    size_t depth, moving, changed = 0;
    memcpy(before, desk, size);
    depth = depth_of(calls);
    moving = depth_of(move_there_and_back);
    CHECK(written_by_calls(size) == desk);
    for (size_t i = 0; i < size; i++) {
        if (desk[i] == before[i])
            continue;
        CHECK(i >= LINE && i < size - LINE);
        changed++;
    }
    CHECK(changed > 0);
    return depth > moving ? depth : moving;
}

/* ---- What an object keeps of the heap ---- */

enum { FEW_SEATS = 64, MOST_ENTRIES = 16, MOST_BUNDLES = 8 };

static fak_c_seat many[LARGE_SEATS];

/* The opened object keeps as many bytes, and its seats give all of them back. */
static void keeps(int32_t opened, size_t n, size_t bytes) {
    CHECK(opened == FAK_C_OK && heap_in_use == bytes);
    for (size_t i = 0; i < n; i++)
        CHECK(fak_c_leave(&many[i]) == FAK_C_OK);
    CHECK(heap_in_use == 0);
}

static void each_kind_keeps_its_heap(size_t n) {
    static const uint64_t sizes[] = {1, 2, 7, 64, 1000, 4096, 65537};
    for (size_t i = 0; i < sizeof sizes / sizeof *sizes; i++) {
        keeps(fak_c_open(many, n, sizes[i], 1000), n, FAK_C_QUEUE_KEEPS(n, sizes[i]));
        keeps(fak_c_sem_open(many, n, 0, sizes[i], 1000), n, FAK_C_SEM_KEEPS(n, sizes[i]));
        keeps(fak_c_room_open(many, n, sizes[i], 1000), n, FAK_C_ROOM_KEEPS(n));
        keeps(fak_c_credit_open(many, n, sizes[i], 1000), n, FAK_C_CREDIT_KEEPS(n));
    }
    for (uint64_t entries = 1; entries <= MOST_ENTRIES; entries++)
        keeps(fak_c_files_open(many, n, entries, 1000), n, FAK_C_FILES_KEEPS(n, entries));
}

/* The same of queues with bundles of these widths. */
static void bundles_keep_their_heap(size_t n, size_t m) {
    static const uint64_t widths[] = {1, 2, 8, 33}, sizes[] = {1, 64, 1000};
    for (size_t i = 0; i < sizeof widths / sizeof *widths; i++)
        for (size_t j = 0; j < sizeof sizes / sizeof *sizes; j++)
            keeps(fak_c_open_bundles(many, n, many + n, m, widths[i], sizes[j], 1000), n + m,
                FAK_C_BUNDLES_KEEPS(n, m, widths[i], sizes[j]));
}

int main(void) {
    static const struct {
        void (*open)(void);
        void (*use)(void);
        size_t size;
    } jobs[] = {{open_queue, use_queue, DESK}, {open_semaphore, use_semaphore, DESK}, {open_room, use_room, DESK},
        {open_credit, use_credit, DESK}, {open_files, use_files, DESK}, {open_bundle, use_bundle, BUNDLE}};
    size_t opening = 0, leaving = 0, bursts = 0, other = 0, depth;
    for (size_t i = 0; i < sizeof jobs / sizeof *jobs; i++) {
        depth = depth_of(jobs[i].open);
        opening = depth > opening ? depth : opening;
        depth = depth_of_calls(jobs[i].use, jobs[i].size);
        if (jobs[i].size == BUNDLE)
            bursts = depth;
        else
            other = depth > other ? depth : other;
        depth = depth_of(leave_all);
        leaving = depth > leaving ? depth : leaving;
        CHECK(heap_in_use == 0);
    }
    for (size_t n = 1; n <= FEW_SEATS; n++)
        each_kind_keeps_its_heap(n);
    each_kind_keeps_its_heap(LARGE_SEATS);
    for (size_t m = 1; m <= MOST_BUNDLES; m++)
        for (size_t n = 0; n <= 2; n++)
            bundles_keep_their_heap(n, m);
    printf("stack: %zu bytes in a call that opens, %zu in fak_c_leave, %zu in a burst, %zu in others\n", opening, leaving, bursts, other);
    CHECK(opening < 6144 && leaving < 4608 && bursts < 768 && other < 256);
    return 0;
}
