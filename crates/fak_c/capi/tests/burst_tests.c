/* Limits of bundles, the widest burst, and random bursts compared with a plain list, on one thread. rows/bundle.rows has each code. */
#include "tests.h"

#include <string.h>

enum { MOST = 16 };

/* A queue with n seats and m bundles has these numbers: each handle is in the state in which it was opened. */
static void check_opened(fak_c_seat *seats, size_t n, fak_c_seat *bundles, size_t m, uint64_t width, uint64_t stint) {
    for (size_t i = 0; i < n; i++) {
        uint32_t state = 99;
        uint64_t ticket = 99, left = 99;
        CHECK(fak_c_state(&seats[i], &state, &ticket, &left) == FAK_C_OK && state == FAK_C_IDLE && ticket == 99 && left == stint);
    }
    for (size_t i = 0; i < m; i++) {
        uint32_t state = 99;
        uint64_t ticket = 99, open = 99, found = 99, left = 99;
        CHECK(fak_c_bundle_state(&bundles[i], &state, &ticket, &open, &found, &left) == FAK_C_OK && state == FAK_C_IDLE);
        CHECK(ticket == 99 && open == 99 && found == width && left == width * stint);
    }
}

static void leave_all(fak_c_seat *handles, size_t n) {
    for (size_t i = 0; i < n; i++)
        CHECK(fak_c_leave(&handles[i]) == FAK_C_OK && handles[i].at == NULL);
}

/* Numbers on either side of each limit. FAK_C_IS_.. says which is out of range, and exactly then the code is FAK_C_BAD_LIMIT. */
static void each_limit_of_bundles_is_named(void) {
    static fak_c_seat seats[LARGE_SEATS], bundles[LARGE_SEATS];
    static const uint64_t numbers[] = {0, 1, 2, 31, 32, 33, 511, 512, 1023, 1024, 1025, UINT64_C(1) << 32, UINT64_C(1) << 54, UINT64_MAX};
    enum { NUMBERS = sizeof numbers / sizeof *numbers };
    for (size_t at = 0; at < NUMBERS * NUMBERS * NUMBERS; at++) {
        size_t n = numbers[at % NUMBERS], m = numbers[at / NUMBERS % NUMBERS];
        uint64_t width = numbers[at / NUMBERS / NUMBERS];
        bool fits = FAK_C_IS_BUNDLES(n, m, width);
        uint64_t all = fits ? n + m * width : 1, most = LARGE_CALLS / all;
        const uint64_t stints[] = {1, most, most + 1, 0, UINT64_MAX};
        CHECK(fits == (n <= 1024 && m >= 1 && m <= 1024 && width >= 1 && width <= 1024 && n + m * width <= 1024));
        for (size_t i = 0; i < sizeof stints / sizeof *stints; i++) {
            int32_t wanted = fits && FAK_C_IS_STINT(all, stints[i]) ? FAK_C_OK : FAK_C_BAD_LIMIT;
            CHECK((i < 2) == (FAK_C_IS_STINT(all, stints[i])));
            CHECK(fak_c_open_bundles(seats, n, bundles, m, width, 5, stints[i]) == wanted);
            if (wanted != FAK_C_OK)
                continue;
            check_opened(seats, n, bundles, m, width, stints[i]);
            leave_all(seats, n);
            leave_all(bundles, m);
        }
    }
}

_Static_assert(FAK_C_IS_BUNDLES(0, 1, 1024) && FAK_C_IS_BUNDLES(24, 125, 8) && !FAK_C_IS_BUNDLES(25, 125, 8), "limits");

/* A bundle of all the seats that there may be passes as many items by one burst. Its last burst has the tickets that are left. */
static void the_widest_burst_passes(void) {
    enum { CELLS = 1500, REST = CELLS - LARGE_SEATS };
    static uint64_t items[CELLS], found[CELLS];
    fak_c_seat none = {0}, bundle = {0};
    uint64_t ticket = 99, count = 99, taken = 99;
    for (uint64_t i = 0; i < CELLS; i++)
        items[i] = 7 * i;
    CHECK(fak_c_open_bundles(&none, 0, &bundle, 1, LARGE_SEATS, CELLS, 3) == FAK_C_OK);
    CHECK(fak_c_insert_burst(&bundle, items, CELLS, &ticket, &count) == FAK_C_OK && ticket == 0 && count == LARGE_SEATS);
    CHECK(fak_c_insert_burst(&bundle, items + LARGE_SEATS, REST, &ticket, &count) == FAK_C_OK && ticket == LARGE_SEATS && count == REST);
    CHECK(fak_c_insert_burst(&bundle, items, 1, &ticket, &count) == FAK_C_FULL);
    CHECK(fak_c_delete_burst(&bundle, found, CELLS, &ticket, &count, &taken) == FAK_C_OK && ticket == 0 && taken == LARGE_SEATS);
    CHECK(fak_c_delete_burst(&bundle, found + LARGE_SEATS, REST, &ticket, &count, &taken) == FAK_C_OK && taken == REST);
    CHECK(memcmp(found, items, sizeof items) == 0);
    CHECK(fak_c_insert_burst(&bundle, items, CELLS, &ticket, &count) == FAK_C_OK && count == 3 * LARGE_SEATS - 2 * CELLS);
    CHECK(fak_c_insert_burst(&bundle, items, 1, &ticket, &count) == FAK_C_WORN && fak_c_leave(&bundle) == FAK_C_OK);
}

/* ---- Random bursts compared with a plain list ---- */

enum { LIST = 64, BUNDLES = 3 };

static uint64_t list[LIST], list_size, list_count, list_puts, list_gets;

static uint64_t drawn(uint64_t below) {
    static uint64_t state = 88172645463325252;
    state ^= state << 13;
    state ^= state >> 7;
    state ^= state << 17;
    return state % below;
}

static uint64_t least(uint64_t a, uint64_t b) {
    return a < b ? a : b;
}

/* Inserts n drawn items into the queue and the list. A single thread is never refused while there is room, so both take as many. */
static void insert_drawn(fak_c_seat *bundle, uint64_t width, uint64_t n) {
    uint64_t items[MOST], ticket = 99, count = 99, fitting = least(least(n, width), list_size - list_count);
    for (uint64_t i = 0; i < n; i++)
        items[i] = drawn(UINT64_MAX);
    if (fitting == 0) {
        CHECK(fak_c_insert_burst(bundle, items, n, &ticket, &count) == FAK_C_FULL && ticket == 99 && count == 99);
        return;
    }
    CHECK(fak_c_insert_burst(bundle, items, n, &ticket, &count) == FAK_C_OK && ticket == list_puts && count == fitting);
    for (uint64_t i = 0; i < fitting; i++)
        list[list_puts++ % list_size] = items[i];
    list_count += fitting;
}

static void delete_drawn(fak_c_seat *bundle, uint64_t width, uint64_t n) {
    uint64_t items[MOST] = {0}, ticket = 99, count = 99, taken = 99, there = least(least(n, width), list_count);
    if (there == 0) {
        CHECK(fak_c_delete_burst(bundle, items, n, &ticket, &count, &taken) == FAK_C_EMPTY && ticket == 99 && count == 99 && taken == 99);
        return;
    }
    CHECK(fak_c_delete_burst(bundle, items, n, &ticket, &count, &taken) == FAK_C_OK);
    CHECK(ticket == list_gets && count == there && taken == there);
    for (uint64_t i = 0; i < there; i++)
        CHECK(items[i] == list[list_gets++ % list_size]);
    list_count -= there;
}

/* Single calls among the bursts. */
static void call_once(fak_c_seat *seat) {
    uint64_t ticket = 99, item = drawn(UINT64_MAX);
    if (drawn(2) == 0) {
        bool fits = list_count < list_size;
        CHECK(fak_c_insert(seat, item, &ticket) == (fits ? FAK_C_OK : FAK_C_FULL) && ticket == (fits ? list_puts : 99));
        if (fits)
            list[list_puts++ % list_size] = item;
        list_count += fits;
    } else {
        bool fits = list_count > 0;
        CHECK(fak_c_delete(seat, &ticket, &item) == (fits ? FAK_C_OK : FAK_C_EMPTY) && ticket == (fits ? list_gets : 99));
        CHECK(!fits || item == list[list_gets++ % list_size]);
        list_count -= fits;
    }
}

/* Three bundles and a seat, by drawn calls, in a queue of this size. Phases of many insertions and of many deletions follow each other. */
static void play_a_queue(uint64_t size, uint64_t width, uint64_t calls) {
    fak_c_seat seat = {0}, bundles[BUNDLES] = {0};
    CHECK(fak_c_open_bundles(&seat, 1, bundles, BUNDLES, width, size, LONG_STINT) == FAK_C_OK);
    list_size = size;
    list_count = list_puts = list_gets = 0;
    for (uint64_t call = 0; call < calls; call++) {
        fak_c_seat *bundle = &bundles[drawn(BUNDLES)];
        uint64_t n = 1 + drawn(MOST), lot = drawn(8);
        if (lot == 0)
            call_once(&seat);
        else if ((lot < 6) == (call / 64 % 2 == 0))
            insert_drawn(bundle, width, n);
        else
            delete_drawn(bundle, width, n);
    }
    CHECK(fak_c_leave(&seat) == FAK_C_OK);
    leave_all(bundles, BUNDLES);
}

static void random_bursts_are_those_of_a_list(void) {
    static const uint64_t widths[] = {1, 2, 3, 8, 13, 32};
    for (uint64_t size = 1; size <= LIST; size = size < 9 ? size + 1 : 2 * size - 1)
        for (size_t i = 0; i < sizeof widths / sizeof *widths; i++)
            play_a_queue(size, widths[i], 2000);
}

void bursts_are_those_of_a_list(void) {
    each_limit_of_bundles_is_named();
    the_widest_burst_passes();
    random_bursts_are_those_of_a_list();
}
