/* Each allocation of each opening fails in turn, and no other call allocates. The linker's --wrap sends the library's calls of malloc
 * and free here. */
#include "tests.h"

#include <stdatomic.h>

enum { SEATS = 3, KINDS = 6 };

static atomic_long made, failing, live;

void *__real_malloc(size_t size);
void *__wrap_malloc(size_t size);
void __real_free(void *block);
void __wrap_free(void *block);

void *__wrap_malloc(size_t size) {
    void *block;
    if (atomic_fetch_add(&made, 1) + 1 == failing)
        return NULL;
    block = __real_malloc(size);
    live += block != NULL;
    return block;
}

void __wrap_free(void *block) {
    live -= block != NULL;
    __real_free(block);
}

/* The second half of the handles are bundles: of three seats each if there are few of them. */
static int32_t open_bundles(fak_c_seat *handles, size_t n) {
    size_t bundles = n / 2, seats = n - bundles;
    return fak_c_open_bundles(handles, seats, handles + seats, bundles, n == SEATS ? 3 : 1, 5, 10);
}

static int32_t open_kind(fak_c_seat *seats, size_t n, int kind) {
    switch (kind) {
    case 0:
        return fak_c_open(seats, n, 5, 10);
    case 1:
        return fak_c_sem_open(seats, n, 0, 5, 10);
    case 2:
        return fak_c_room_open(seats, n, 5, 10);
    case 3:
        return fak_c_credit_open(seats, n, 5, 10);
    case 4:
        return fak_c_files_open(seats, n, 5, 10);
    default:
        return open_bundles(seats, n);
    }
}

/* Opens an object while the allocation of this number fails. True if the opening succeeded. */
static bool opens(fak_c_seat *seats, size_t n, int kind, long number) {
    int32_t code;
    made = 0;
    failing = number;
    code = open_kind(seats, n, kind);
    failing = 0;
    if (code == FAK_C_OK)
        return true;
    CHECK(code == FAK_C_MEMORY);
    for (size_t i = 0; i < n; i++)
        CHECK(seats[i].at == NULL);
    CHECK(live == 0);
    return false;
}

static void use_a_queue(fak_c_seat *seats) {
    uint64_t ticket = 0, item = 0, left = 0;
    int64_t count = 0;
    uint32_t state = 0;
    bool was_open = false;
    CHECK(fak_c_claim_insert(&seats[0], 7, &ticket) == FAK_C_OK && fak_c_try_fill(&seats[0]) == FAK_C_OK);
    CHECK(fak_c_claim_delete(&seats[1], &ticket) == FAK_C_OK && fak_c_try_take(&seats[1], &item) == FAK_C_OK && item == 7);
    CHECK(fak_c_insert(&seats[0], 8, &ticket) == FAK_C_OK && fak_c_delete(&seats[1], &ticket, &item) == FAK_C_OK && item == 8);
    CHECK(fak_c_pause(&seats[1]) == FAK_C_OK && fak_c_count(&seats[1], &count) == FAK_C_OK);
    CHECK(fak_c_in_use(&seats[1], &count, &was_open) == FAK_C_OK && fak_c_drained(&seats[1], &was_open) == FAK_C_OK);
    CHECK(fak_c_state(&seats[2], &state, &ticket, &left) == FAK_C_OK && fak_c_shut(&seats[2], &was_open) == FAK_C_OK);
}

static void use_a_semaphore(fak_c_seat *seats) {
    uint64_t item = 0, left = 0;
    uint32_t state = 0;
    CHECK(fak_c_sem_claim_down(&seats[0], 7) == FAK_C_PARKS && fak_c_sem_try_park(&seats[0]) == FAK_C_OK);
    CHECK(fak_c_sem_claim_up(&seats[1]) == FAK_C_WAKES && fak_c_sem_try_wake(&seats[1], &item) == FAK_C_OK && item == 7);
    CHECK(fak_c_sem_state(&seats[2], &state, &left) == FAK_C_OK);
}

static void use_a_room(fak_c_seat *seats) {
    uint64_t held = 0, left = 0;
    int64_t found = 0;
    CHECK(fak_c_room_tir(&seats[0], 2, &found) == FAK_C_OK && fak_c_room_release(&seats[0], 2, &found) == FAK_C_OK);
    CHECK(fak_c_room_state(&seats[0], &held, &left) == FAK_C_OK);
}

static void use_a_credit(fak_c_seat *seats) {
    uint64_t left = 0;
    int64_t found = 0;
    CHECK(fak_c_credit_debit(&seats[0], &found) == FAK_C_OK && fak_c_credit_credit(&seats[1], &found) == FAK_C_OK);
    CHECK(fak_c_credit_value(&seats[0], &found, &left) == FAK_C_OK);
}

static void use_a_table(fak_c_seat *seats) {
    uint64_t inode = 0, uses = 0;
    uint32_t hold = 0;
    int64_t count = 0;
    CHECK(fak_c_files_try_read(&seats[0], &count) == FAK_C_OK && fak_c_files_end(&seats[0]) == FAK_C_OK);
    CHECK(fak_c_files_try_write(&seats[1], &count) == FAK_C_OK);
    CHECK(fak_c_files_set_inode(&seats[1], 0, 1) == FAK_C_OK && fak_c_files_set_uses(&seats[1], 0, 1) == FAK_C_OK);
    CHECK(fak_c_files_get(&seats[1], 0, &inode, &uses) == FAK_C_OK && fak_c_files_end(&seats[1]) == FAK_C_OK);
    CHECK(fak_c_files_hold(&seats[1], &hold) == FAK_C_OK);
}

/* Two seats and a bundle of three. A burst of each kind waits for the first seat's call, and goes on. */
static void use_bundles(fak_c_seat *handles) {
    fak_c_seat *bundle = &handles[2];
    uint64_t items[3] = {7, 8, 9}, ticket = 0, item = 0, count = 0, taken = 0, open = 0, width = 0, left = 0;
    uint32_t state = 0;
    CHECK(fak_c_insert_burst(bundle, items, 3, &ticket, &count) == FAK_C_OK && count == 3);
    CHECK(fak_c_delete_burst(bundle, items, 2, &ticket, &count, &taken) == FAK_C_OK && taken == 2);
    CHECK(fak_c_claim_insert(&handles[0], 10, &ticket) == FAK_C_OK);
    CHECK(fak_c_insert_burst(bundle, items, 1, &ticket, &count) == FAK_C_OK && count == 1);
    CHECK(fak_c_delete_burst(bundle, items, 2, &ticket, &count, &taken) == FAK_C_NOT_YET && taken == 1 && items[0] == 9);
    CHECK(fak_c_bundle_state(bundle, &state, &ticket, &open, &width, &left) == FAK_C_OK && open == 1);
    CHECK(fak_c_try_fill(&handles[0]) == FAK_C_OK);
    CHECK(fak_c_try_take_burst(bundle, items, 1, &taken, &left) == FAK_C_OK && items[0] == 10);
    CHECK(fak_c_insert_burst(bundle, items, 3, &ticket, &count) == FAK_C_OK && count == 3);
    CHECK(fak_c_claim_delete(&handles[0], &ticket) == FAK_C_OK);
    CHECK(fak_c_delete_burst(bundle, items, 3, &ticket, &count, &taken) == FAK_C_OK && taken == 3);
    CHECK(fak_c_insert_burst(bundle, items, 3, &ticket, &count) == FAK_C_NOT_YET && count == 3);
    CHECK(fak_c_try_take(&handles[0], &item) == FAK_C_OK && fak_c_try_fill_burst(bundle, &left) == FAK_C_OK);
}

/* Each call of this kind; none allocates. */
static void use(fak_c_seat *seats, int kind) {
    static void (*const uses[KINDS])(fak_c_seat *) = {use_a_queue, use_a_semaphore, use_a_room, use_a_credit, use_a_table, use_bundles};
    fak_c_seat home = {0};
    long before = live;
    made = 0;
    uses[kind](seats);
    for (int i = 0; i < SEATS; i++)
        CHECK(fak_c_move(&seats[i], &home) == FAK_C_OK && fak_c_move(&home, &seats[i]) == FAK_C_OK);
    CHECK(live == before);
    for (int i = 0; i < SEATS; i++)
        CHECK(fak_c_leave(&seats[i]) == FAK_C_OK);
    CHECK(made == 0 && live == 0);
}

/* Opens an object with n seats, once each of its allocations has failed. */
static void each_allocation_fails(fak_c_seat *seats, size_t n, int kind) {
    long number = 1, desks = (long)n;
    live = 0;
    while (!opens(seats, n, kind, number)) {
        /* The next one finds its handles full. */
        CHECK(number % 2 == 0 || opens(seats, n, kind, 0));
        number++;
    }
    /* There is a desk for each seat, and the object. */
    CHECK(number > desks + 1 && made < number && live > desks);
}

void each_allocation_fails_in_turn(void) {
    static fak_c_seat seats[LARGE_SEATS];
    for (int kind = 0; kind < KINDS; kind++) {
        each_allocation_fails(seats, SEATS, kind);
        use(seats, kind);
        each_allocation_fails(seats, LARGE_SEATS, kind);
        for (int i = 0; i < LARGE_SEATS; i++)
            CHECK(fak_c_leave(&seats[i]) == FAK_C_OK);
        CHECK(live == 0);
    }
}
