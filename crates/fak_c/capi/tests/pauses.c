/* How long seats that take turns pause: as long as they should, and no longer. */
#include "tests.h"

#include <time.h>

#define LARGEST_SIZE 4096
/* In queues of fewer cells nobody pauses, and in those of more than MOST_CELLS no pause is longer. */
#define FEWEST_CELLS 64
#define MOST_CELLS 1024
/* How often a pause spins for each cell, at least. */
#define SPINS_FOR_A_CELL 6
/* Enough calls of each seat for two pauses, and too few for four. */
#define PAIRS 240
#define FEWEST_PAUSES 4
#define MOST_PAUSES 6
/* The four pauses take a tenth of a millisecond, and several tenths if a processor waits longer in each spin. */
#define MOST_SECONDS 0.005
#define MOST_TRIALS 20
/* A call that does not pause takes less, and less than READINGS readings of the clock, unless the machine stops it. The thread sanitizer
 * takes some microseconds of its own now and then. */
#ifdef FAK_C_THREAD_SANITIZER
#define QUICK_NANOSECONDS 20000.0
#else
#define QUICK_NANOSECONDS 1000.0
#endif
#define READINGS 20

/* How long the calls of one trial took. */
typedef struct {
    double seconds;  /* of the processor */
    int long_pauses; /* pauses that took as long as was asked */
} turns;

static double nanoseconds(void) {
    struct timespec now;
    CHECK(clock_gettime(CLOCK_MONOTONIC, &now) == 0);
    return (double)now.tv_sec * 1e9 + (double)now.tv_nsec;
}

/* How long these spins take: the best of many runs, so that no stop of the machine counts. */
static double nanoseconds_of_spins(int spins) {
    enum { RUNS = 1000 };
    double best = 1e9;
    for (int run = 0; run < RUNS; run++) {
        double start = nanoseconds(), took;
        for (int i = 0; i < spins; i++)
#ifdef __x86_64__
            __asm__ volatile("pause");
#else
            __asm__ volatile("");
#endif
        took = nanoseconds() - start;
        best = took < best ? took : best;
    }
    return best;
}

/* Two seats take turns, so that each finds the counts changed, and pause after each call. Counts the pauses that take at least this many
 * nanoseconds. */
static turns turns_of(fak_c_seat *seats, double wanted) {
    clock_t start = clock();
    turns made = {0};
    for (uint64_t i = 0; i < 2 * PAIRS; i++) {
        uint64_t ticket = 0, item = 0;
        double begun;
        if (i % 2 == 0)
            CHECK(fak_c_insert(&seats[0], i, &ticket) == FAK_C_OK);
        else
            CHECK(fak_c_delete(&seats[1], &ticket, &item) == FAK_C_OK && item == i - 1);
        begun = nanoseconds();
        CHECK(fak_c_pause(&seats[i % 2]) == FAK_C_OK);
        made.long_pauses += nanoseconds() - begun >= wanted;
    }
    made.seconds = (double)(clock() - start) / CLOCKS_PER_SEC;
    return made;
}

/* The least time of a pause: a tenth of what its spins took when they were measured, maybe on a slower processor. */
static double least_of(uint64_t size, double spin) {
    uint64_t cells = size < FEWEST_CELLS ? FEWEST_CELLS : size < MOST_CELLS ? size : MOST_CELLS;
    return (double)(cells * SPINS_FOR_A_CELL) * spin / 10;
}

/* Each trial has its pauses, and at least one of a few is short: the machine may have stopped the others. A pause is only counted
 * if it takes longer than a call that does not pause. */
static void size_has_its_pauses(fak_c_seat *seats, bool pauses, double least, double quick) {
    double wanted = !pauses && least < quick ? quick : least;
    bool is_short = false;
    for (int trial = 0; !is_short; trial++) {
        turns made;
        CHECK(trial < MOST_TRIALS);
        made = turns_of(seats, wanted);
        CHECK(!pauses || made.long_pauses >= FEWEST_PAUSES);
        is_short = made.seconds < MOST_SECONDS && (wanted < quick || made.long_pauses <= (pauses ? MOST_PAUSES : 0));
    }
}

void pauses_have_their_length(bool spins) {
    enum { SPINS = 64 };
    double spin = nanoseconds_of_spins(SPINS) / SPINS, quick = READINGS * nanoseconds_of_spins(0);
    if (quick < QUICK_NANOSECONDS)
        quick = QUICK_NANOSECONDS;
    for (uint64_t size = 1; size <= LARGEST_SIZE; size++) {
        fak_c_seat seats[2] = {0};
        CHECK(fak_c_open(seats, 2, size, size % 2 == 0 ? LONG_STINT : MOST_TRIALS * PAIRS) == FAK_C_OK);
        size_has_its_pauses(seats, spins && size >= FEWEST_CELLS, least_of(size, spin), quick);
        for (int i = 0; i < 2; i++)
            CHECK(fak_c_leave(&seats[i]) == FAK_C_OK);
    }
}
