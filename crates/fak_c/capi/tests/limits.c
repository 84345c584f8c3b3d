/* What the header says of limits: FAK_C_BAD_LIMIT is returned exactly if a number is out of range, and FAK_C_IS_.. says which. Each size,
 * each number of seats and each width of a stint is opened. */
#include "tests.h"

/* Each number of seats and each size up to these is opened; large_tests.c has larger ones. */
#define SEATS 64
#define SIZES 4096
#define LARGEST_BOUND (UINT64_C(1) << 32)

_Static_assert(sizeof(fak_c_seat) == 128 && offsetof(fak_c_seat, at) == 64, "a handle's pointer has a cache line of its own");

static const size_t numbers[] = {0, 1, 2, 3, LARGE_SEATS - 1, LARGE_SEATS, LARGE_SEATS + 1, SIZE_MAX};
static const uint64_t sizes[] = {0, 1, 5, LARGE_SIZE + 1, UINT64_MAX};
static const uint64_t starts[] = {0, 1, (UINT64_C(1) << 32) - 1, UINT64_C(1) << 32, (UINT64_C(1) << 32) + 1, UINT64_MAX};
static const uint64_t entries[] = {0, 1, 15, 16, 17, UINT64_MAX};
static const uint64_t amounts[] = {0, 1, 1023, 1024, 1025, UINT64_MAX};

#define LENGTH(list) (sizeof(list) / sizeof *(list))

/* A seat of a queue that was opened with this stint. */
static void check_stint(fak_c_seat *seat, uint64_t stint) {
    uint32_t state = 99;
    uint64_t ticket = 99, left = 99;
    CHECK(fak_c_state(seat, &state, &ticket, &left) == FAK_C_OK && state == FAK_C_IDLE && ticket == 99 && left == stint);
}

/* A program may test its numbers at compile time. */
_Static_assert(FAK_C_IS_SEATS(1024) && !FAK_C_IS_SEATS(1025) && FAK_C_IS_SIZE(16777216) && !FAK_C_IS_SIZE(16777217), "limits");
_Static_assert(FAK_C_IS_STINT(1024, UINT64_C(1) << 40) && !FAK_C_IS_STINT(1024, (UINT64_C(1) << 40) + 1), "limits");
_Static_assert(FAK_C_IS_START(UINT64_C(1) << 32) && FAK_C_IS_ENTRIES(16) && FAK_C_IS_AMOUNT(1024), "limits");

/* The opening of n seats returned this code, and all its numbers fit or not. */
static void check_opening(int32_t code, bool fits, fak_c_seat *seats, size_t n) {
    CHECK(code == (fits ? FAK_C_OK : FAK_C_BAD_LIMIT));
    for (size_t i = 0; fits && i < n; i++)
        CHECK(fak_c_leave(&seats[i]) == FAK_C_OK);
}

/* Each kind with n seats and this stint, at each of its own numbers. */
static void each_kind_is_opened(fak_c_seat *seats, size_t n, uint64_t stint) {
    bool fits = FAK_C_IS_SEATS(n) && FAK_C_IS_STINT(n, stint);
    for (size_t i = 0; i < LENGTH(sizes); i++) {
        bool size_fits = FAK_C_IS_SIZE(sizes[i]);
        check_opening(fak_c_open(seats, n, sizes[i], stint), fits && size_fits, seats, n);
        for (size_t j = 0; j < LENGTH(starts); j++)
            check_opening(fak_c_sem_open(seats, n, starts[j], sizes[i], stint), fits && size_fits && FAK_C_IS_START(starts[j]), seats, n);
    }
    for (size_t i = 0; i < LENGTH(starts); i++) {
        check_opening(fak_c_room_open(seats, n, starts[i], stint), fits && FAK_C_IS_START(starts[i]), seats, n);
        check_opening(fak_c_credit_open(seats, n, starts[i], stint), fits && FAK_C_IS_START(starts[i]), seats, n);
    }
    for (size_t i = 0; i < LENGTH(entries); i++)
        check_opening(fak_c_files_open(seats, n, entries[i], stint), fits && FAK_C_IS_ENTRIES(entries[i]), seats, n);
}

/* Claims of each amount, and what a seat that holds as much gives back. */
static void each_amount_is_claimed(fak_c_seat *seat) {
    int64_t found = 0;
    CHECK(fak_c_room_open(seat, 1, LARGE_SIZE, LONG_STINT) == FAK_C_OK);
    CHECK(fak_c_room_tir(seat, 1024, &found) == FAK_C_OK && fak_c_room_tir(seat, 1024, &found) == FAK_C_OK);
    for (size_t i = 0; i < LENGTH(amounts); i++) {
        int32_t wanted = FAK_C_IS_AMOUNT(amounts[i]) ? FAK_C_OK : FAK_C_BAD_LIMIT;
        CHECK(fak_c_room_tir(seat, amounts[i], &found) == wanted);
        CHECK(fak_c_room_release(seat, amounts[i], &found) == wanted);
    }
    CHECK(fak_c_room_release(seat, 1024, &found) == FAK_C_OK && fak_c_room_release(seat, 1024, &found) == FAK_C_OK);
    CHECK(fak_c_leave(seat) == FAK_C_OK);
}

/* Objects of each kind with this number are opened, each with this many seats, or with one seat if the number is large. */
static void opens(fak_c_seat *seats, size_t n, uint64_t number, uint64_t stint) {
    uint64_t wide = number * (UINT64_C(1) << 20);
    CHECK(fak_c_open(seats, n, number, stint) == FAK_C_OK);
    for (size_t i = 0; i < n; i++)
        check_stint(&seats[i], stint);
    CHECK(fak_c_sem_open(seats, 1, wide, number, stint) == FAK_C_OK);
    CHECK(fak_c_sem_open(seats, n, number, 4097 - number, stint) == FAK_C_OK);
    CHECK(fak_c_room_open(seats, 1, wide, stint) == FAK_C_OK);
    CHECK(fak_c_room_open(seats, n, number - 1, stint) == FAK_C_OK);
    CHECK(fak_c_credit_open(seats, 1, wide, stint) == FAK_C_OK);
    CHECK(fak_c_credit_open(seats, n, number - 1, stint) == FAK_C_OK);
    CHECK(fak_c_files_open(seats, n, number % 16 + 1, stint) == FAK_C_OK);
    for (size_t i = 0; i < n; i++)
        CHECK(fak_c_leave(&seats[i]) == FAK_C_OK);
}

/* No size, no number of seats and no width of a stint is refused. */
static void each_size_is_opened(void) {
    fak_c_seat seats[SEATS] = {0};
    for (uint64_t size = 1; size <= SIZES; size++)
        opens(seats, size % SEATS + 1, size, UINT64_C(1) << size % 41);
}

/* Objects of each kind are opened with this number, or the most there may be, as their bound or start and as their stint. */
static void opens_wide(fak_c_seat *seats, size_t n, uint64_t number) {
    uint64_t bound = number < LARGEST_BOUND ? number : LARGEST_BOUND;
    uint64_t stint = number == 0 ? 1 : number < LARGE_CALLS / n ? number : LARGE_CALLS / n;
    CHECK(fak_c_open(seats, n, 5, stint) == FAK_C_OK);
    for (size_t i = 0; i < n; i++)
        check_stint(&seats[i], stint);
    CHECK(fak_c_sem_open(seats, n, bound, 5, stint) == FAK_C_OK);
    CHECK(fak_c_room_open(seats, n, bound, stint) == FAK_C_OK);
    CHECK(fak_c_credit_open(seats, n, bound, stint) == FAK_C_OK);
    CHECK(fak_c_files_open(seats, n, 5, stint) == FAK_C_OK);
    for (size_t i = 0; i < n; i++)
        CHECK(fak_c_leave(&seats[i]) == FAK_C_OK);
}

/* No bound, no start and no stint is refused that is a power of two, next to one or halfway to the next. */
static void each_width_is_opened(void) {
    fak_c_seat seats[SEATS] = {0};
    for (uint64_t power = 1, n = 1; power <= LARGE_CALLS; power *= 2, n++) {
        opens_wide(seats, n, power - 1);
        opens_wide(seats, n, power);
        opens_wide(seats, n, power + 1);
        opens_wide(seats, n, power + power / 2);
    }
}

void each_limit_is_named(void) {
    static fak_c_seat seats[LARGE_SEATS];
    CHECK(FAK_C_MOST_SEATS == LARGE_SEATS && FAK_C_MOST_CELLS == LARGE_SIZE && FAK_C_MOST_CALLS == LARGE_CALLS);
    for (size_t i = 0; i < LENGTH(numbers); i++) {
        uint64_t most = LARGE_CALLS / (numbers[i] == 0 ? 1 : numbers[i]);
        const uint64_t stints[] = {0, 1, most, most + 1, UINT64_MAX};
        for (size_t j = 0; j < LENGTH(stints); j++)
            each_kind_is_opened(seats, numbers[i], stints[j]);
    }
    each_amount_is_claimed(&seats[0]);
    each_size_is_opened();
    each_width_is_opened();
}
