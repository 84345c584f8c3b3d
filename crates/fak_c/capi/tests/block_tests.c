/* Objects in memory of the caller: each kind at the size that block.h says, and refused in less; the parts of a block; and threads
 * that leave objects of one block at once. The program has no other heap for the library. */
#include "heap.h"
#include "objects.h"
#include "tests.h"

#include <pthread.h>
#include <sched.h>
#include <stdatomic.h>
#include <string.h>

enum { MOST_SEATS = 64 };

static _Alignas(16) unsigned char memory[1 << 20];
static fak_c_seat seats[MOST_SEATS];

/* ---- Sizes ---- */

/* Opens in this number of bytes; `used` is how many of them. */
static int32_t opened_within(int kind, size_t n, uint64_t size, size_t bytes, size_t *used) {
    fak_c_block_begin(memory, bytes);
    CHECK(fak_c_block_is_free(memory));
    return opened_in(memory, bytes, kind, seats, n, size, 1000, used);
}

/* What was used is enough. Sizes below it are refused, and leave nothing in use. */
static void less_is_refused(int kind, size_t n, uint64_t size, size_t used) {
    size_t again = 0, step = used > 20000 ? used / 50 : 16;
    CHECK(opened_within(kind, n, size, used, &again) == FAK_C_OK && again == used);
    all_leave(memory, seats, n);
    for (size_t bytes = 64; bytes < used; bytes += step) {
        CHECK(opened_within(kind, n, size, bytes, &again) == FAK_C_MEMORY);
        CHECK(fak_c_block_is_free(memory));
    }
    CHECK(opened_within(kind, n, size, used - 1, &again) == FAK_C_MEMORY);
    CHECK(fak_c_block_is_free(memory));
}

/* Opens each kind at many sizes. Returns how many bytes the largest object used. */
static size_t each_size_is_opened(void) {
    static const size_t numbers[] = {1, 2, 3, 8, MOST_SEATS};
    static const uint64_t sizes[] = {1, 2, 7, 64, 1000, 4096};
    size_t used = 0, most = 0;
    for (int kind = 0; kind < KINDS; kind++) {
        for (size_t i = 0; i < sizeof numbers / sizeof *numbers; i++) {
            for (size_t j = 0; j < sizeof sizes / sizeof *sizes; j++) {
                size_t n = numbers[i], bytes = bytes_of(kind, n, sizes[j]);
                CHECK(bytes <= sizeof memory && opened_within(kind, n, sizes[j], bytes, &used) == FAK_C_OK);
                all_leave(memory, seats, n);
                less_is_refused(kind, n, sizes[j], used);
                most = used > most ? used : most;
            }
        }
    }
    return most;
}

/* ---- Bundles ---- */

enum { MOST_BUNDLES = 8 };

static fak_c_seat bundles[MOST_BUNDLES];

/* Opens n seats and m bundles within this number of bytes; `used` is how many of them. */
static int32_t bundles_within(size_t n, size_t m, uint64_t width, uint64_t size, size_t bytes, size_t *used) {
    int32_t code;
    fak_c_block_begin(memory, bytes);
    code = fak_c_open_bundles(seats, n, bundles, m, width, size, 1000);
    *used = fak_c_block_end();
    CHECK(*used <= bytes);
    return code;
}

static void all_bundles_leave(size_t n, size_t m) {
    each_leaves(memory, bundles, m);
    all_leave(memory, seats, n);
}

/* Opens bundles of many widths at the size that block.h says. Less than what they used is refused, and leaves nothing in use. */
static void each_width_is_opened(void) {
    static const size_t numbers[] = {0, 1, 3}, bundle_numbers[] = {1, 2, MOST_BUNDLES};
    static const uint64_t widths[] = {1, 2, 7, 16, 64}, sizes[] = {1, 64, 1000};
    size_t used = 0, again = 0;
    for (size_t at = 0; at < 3 * 3 * 5 * 3; at++) {
        size_t n = numbers[at % 3], m = bundle_numbers[at / 3 % 3], bytes;
        uint64_t width = widths[at / 9 % 5], size = sizes[at / 45];
        bytes = FAK_C_BUNDLES_BYTES(n, m, width, size);
        CHECK(bytes <= sizeof memory && bundles_within(n, m, width, size, bytes, &used) == FAK_C_OK);
        all_bundles_leave(n, m);
        CHECK(bundles_within(n, m, width, size, used, &again) == FAK_C_OK && again == used);
        all_bundles_leave(n, m);
        for (bytes = 64; bytes < used; bytes += used / 50 + 1)
            CHECK(bundles_within(n, m, width, size, bytes, &again) == FAK_C_MEMORY && fak_c_block_is_free(memory));
        CHECK(bundles_within(n, m, width, size, used - 1, &again) == FAK_C_MEMORY && fak_c_block_is_free(memory));
    }
}

/* ---- Parts: what the library asks for ---- */

static void check_refused(size_t size, size_t align) {
    struct allocation made = rattle_alloc(size, align);
    CHECK(!made.found && made.at != NULL);
}

/* Parts of each size lie in the block, aligned to 16, and none overlaps another or a head. What does not fit is refused. */
static void parts_are_disjoint(void) {
    enum { SIZES = 100, BYTES = 16384, HEAD = 32 };
    unsigned char *made[SIZES];
    fak_c_block_begin(memory, BYTES);
    for (size_t i = 0; i < SIZES; i++) {
        struct allocation part = rattle_alloc(i, i % 2 == 0 ? 8 : 16);
        CHECK(part.found);
        made[i] = part.at;
        CHECK((uintptr_t)made[i] % 16 == 0 && made[i] >= memory + HEAD && made[i] + i <= memory + BYTES);
        memset(made[i], (int)i, i);
    }
    check_refused(16, 32);
    check_refused(BYTES, 16);
    for (size_t less = 0; less <= 64; less++)
        check_refused(SIZE_MAX - less, 16);
    CHECK(!rattle_realloc(made[1], 1, 2, 16).found);
    CHECK(fak_c_block_end() <= BYTES);
    check_refused(16, 16);
    for (size_t i = 0; i < SIZES; i++) {
        for (size_t byte = 0; byte < i; byte++)
            CHECK(made[i][byte] == i);
        CHECK(!fak_c_block_is_free(memory));
        rattle_dealloc(made[i]);
    }
    CHECK(fak_c_block_is_free(memory));
}

/* ---- Parts that threads give back at once ---- */

enum { OBJECTS = 40, PARTS = 20000, GIVERS = 2, ROUNDS = 100, MOST_SPINS = 100000 };

static fak_c_seat shared[OBJECTS][MOST_SEATS];
static void *parts[PARTS];
static atomic_int given_away; /* how many objects, or lists of parts, the threads may begin with */

/* Both threads should begin at the same moment, so they don't leave their processors soon. */
static void wait_for(int number) {
    for (int spins = 1; atomic_load(&given_away) < number; spins++)
        if (spins % MOST_SPINS == 0)
            sched_yield();
}

/* Leaves every second seat of each object but its first, as soon as it may. */
static void *leave_half(void *first) {
    for (int i = 0; i < OBJECTS; i++) {
        wait_for(i + 1);
        for (size_t seat = *(const size_t *)first; seat < MOST_SEATS; seat += GIVERS)
            CHECK(fak_c_leave(&shared[i][seat]) == FAK_C_OK);
    }
    return NULL;
}

/* Gives back every second part but the first. */
static void *give_half(void *first) {
    wait_for(1);
    for (size_t part = *(const size_t *)first; part < PARTS; part += GIVERS)
        rattle_dealloc(parts[part]);
    return NULL;
}

/* Opens credits. The threads leave each as soon as it is open, or all of them at the end. */
static void open_all(bool one_by_one) {
    for (int i = 0; i < OBJECTS; i++) {
        CHECK(fak_c_credit_open(shared[i], MOST_SEATS, 0, 1) == FAK_C_OK);
        if (one_by_one)
            atomic_store(&given_away, i + 1);
    }
    atomic_store(&given_away, OBJECTS);
}

static void open_one_by_one(void) { open_all(true); }
static void open_at_first(void) { open_all(false); }

static void take_parts(void) {
    for (int i = 0; i < PARTS; i++) {
        struct allocation made = rattle_alloc(16, 16);
        CHECK(made.found);
        parts[i] = made.at;
    }
    atomic_store(&given_away, 1);
}

static void leave_the_first_seats(void) {
    for (int i = 0; i < OBJECTS; i++) {
        CHECK(!fak_c_block_is_free(memory));
        CHECK(fak_c_leave(&shared[i][0]) == FAK_C_OK);
    }
}

static void give_the_first_part(void) {
    CHECK(!fak_c_block_is_free(memory));
    rattle_dealloc(parts[0]);
}

/* Two threads give back at once what this one takes. The block is free once the last part was given back, no sooner and no later: so
 * each part was counted once. */
static void each_part_is_counted_once(void (*take)(void), void *(*give)(void *), void (*give_the_rest)(void)) {
    static const size_t firsts[GIVERS] = {1, 2};
    pthread_t givers[GIVERS];
    atomic_store(&given_away, 0);
    for (int i = 0; i < GIVERS; i++)
        CHECK(pthread_create(&givers[i], NULL, give, (void *)(uintptr_t)&firsts[i]) == 0);
    fak_c_block_begin(memory, sizeof memory);
    take();
    CHECK(fak_c_block_end() <= sizeof memory);
    for (int i = 0; i < GIVERS; i++)
        CHECK(pthread_join(givers[i], NULL) == 0);
    give_the_rest();
    CHECK(fak_c_block_is_free(memory));
}

int main(void) {
    CHECK(opened(QUEUE, seats, 1, 1, 1000) == FAK_C_MEMORY);
    printf("the largest object took %zu bytes\n", each_size_is_opened());
    each_width_is_opened();
    parts_are_disjoint();
    for (int round = 0; round < ROUNDS; round++) {
        each_part_is_counted_once(open_one_by_one, leave_half, leave_the_first_seats);
        each_part_is_counted_once(open_at_first, leave_half, leave_the_first_seats);
        each_part_is_counted_once(take_parts, give_half, give_the_first_part);
    }
    return 0;
}
