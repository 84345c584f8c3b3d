/* Prints what each pair of calls costs in nanoseconds, by one thread without others: the median, the best and the worst of several
 * runs. Then what it costs to open an object and leave it with all seats. */
#include "figures.h"

enum { SEATS = 1, WIDTH = 8, RUNS = 200, TURNS = 20000, OPENINGS = 20 };

static fak_c_seat seats[FAK_C_MOST_SEATS];

static void claim_and_try(void) {
    uint64_t ticket = 0, item = 0;
    must(fak_c_claim_insert(seats, 1, &ticket) == FAK_C_OK && fak_c_try_fill(seats) == FAK_C_OK);
    must(fak_c_claim_delete(seats, &ticket) == FAK_C_OK && fak_c_try_take(seats, &item) == FAK_C_OK);
}

static void insert_and_delete(void) {
    uint64_t ticket = 0, item = 0;
    must(fak_c_insert(seats, 1, &ticket) == FAK_C_OK && fak_c_delete(seats, &ticket, &item) == FAK_C_OK);
}

static void burst_and_burst(void) {
    uint64_t items[WIDTH] = {0}, ticket = 0, count = 0, taken = 0;
    must(fak_c_insert_burst(seats, items, WIDTH, &ticket, &count) == FAK_C_OK && count == WIDTH);
    must(fak_c_delete_burst(seats, items, WIDTH, &ticket, &count, &taken) == FAK_C_OK && taken == WIDTH);
}

static void pass_and_raise(void) {
    must(fak_c_sem_claim_down(seats, 1) == FAK_C_OK && fak_c_sem_claim_up(seats) == FAK_C_OK);
}

static void park_and_wake(void) {
    uint64_t item = 0;
    must(fak_c_sem_claim_down(seats, 1) == FAK_C_PARKS && fak_c_sem_try_park(seats) == FAK_C_OK);
    must(fak_c_sem_claim_up(seats) == FAK_C_WAKES && fak_c_sem_try_wake(seats, &item) == FAK_C_OK);
}

static void claim_and_release(void) {
    int64_t found = 0;
    must(fak_c_room_tir(seats, 1, &found) == FAK_C_OK && fak_c_room_release(seats, 1, &found) == FAK_C_OK);
}

static void debit_and_credit(void) {
    int64_t found = 0;
    must(fak_c_credit_debit(seats, &found) == FAK_C_OK && fak_c_credit_credit(seats, &found) == FAK_C_OK);
}

static void read_and_end(void) {
    int64_t count = 0;
    must(fak_c_files_try_read(seats, &count) == FAK_C_OK && fak_c_files_end(seats) == FAK_C_OK);
}

/* Prints the time of one turn, and gives the seat up. */
static void measure(const char *name, int32_t opened, void (*turn)(void)) {
    double runs[RUNS];
    must(opened == FAK_C_OK);
    for (int run = 0; run < RUNS; run++) {
        double start = nanoseconds();
        for (int i = 0; i < TURNS; i++)
            turn();
        runs[run] = (nanoseconds() - start) / TURNS;
    }
    print_runs(name, runs, RUNS);
    must(fak_c_leave(seats) == FAK_C_OK);
}

/* Prints the time of a queue's opening and of all its seats' leaving. */
static void measure_opening(const char *name, size_t n, uint64_t size) {
    double runs[RUNS];
    for (int run = 0; run < RUNS; run++) {
        double start = nanoseconds();
        for (int i = 0; i < OPENINGS; i++) {
            must(fak_c_open(seats, n, size, LONG_STINT) == FAK_C_OK);
            for (size_t seat = 0; seat < n; seat++)
                must(fak_c_leave(&seats[seat]) == FAK_C_OK);
        }
        runs[run] = (nanoseconds() - start) / OPENINGS;
    }
    print_runs(name, runs, RUNS);
}

int main(void) {
    fak_c_seat none = {0};
    measure("claim_insert, try_fill, claim_delete, try_take", fak_c_open(seats, SEATS, 1024, LONG_STINT), claim_and_try);
    measure("insert, delete", fak_c_open(seats, SEATS, 1024, LONG_STINT), insert_and_delete);
    measure("insert_burst, delete_burst of 8 items", fak_c_open_bundles(&none, 0, seats, SEATS, WIDTH, 1024, LONG_STINT),
        burst_and_burst);
    measure("a down that passes, an up that wakes no item", fak_c_sem_open(seats, SEATS, 1, 64, LONG_STINT), pass_and_raise);
    measure("a down that parks, an up that wakes", fak_c_sem_open(seats, SEATS, 0, 64, LONG_STINT), park_and_wake);
    measure("room_tir, room_release", fak_c_room_open(seats, SEATS, 8, LONG_STINT), claim_and_release);
    measure("credit_debit, credit_credit", fak_c_credit_open(seats, SEATS, 8, LONG_STINT), debit_and_credit);
    measure("files_try_read, files_end", fak_c_files_open(seats, SEATS, 2, LONG_STINT), read_and_end);
    measure_opening("a queue of 16 cells and 2 seats", 2, 16);
    measure_opening("a queue of 64 cells and 64 seats", 64, 64);
    measure_opening("a queue of 1,024 cells and 1,024 seats", FAK_C_MOST_SEATS, 1024);
    return 0;
}
