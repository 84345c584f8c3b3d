/* What this machine takes for the accesses that the model counts, by several rounds. */
#include <stdalign.h>
#include <stddef.h>
#include <unistd.h>
#include "model.h"
#include "threads.h"
enum { CHANGES = 200000, HAND_OVERS = 40000 };

static alignas(ALONE_IN_A_LINE) _Atomic uint64_t shared;

static void open_line(void) { atomic_store(&shared, 0); }

static void *change_the_line(void *number) {
    begin_as(*(int *)number);
    for (int i = 0; i < CHANGES; i++) atomic_fetch_add(&shared, 1);
    return NULL;
}

/* Two threads change the line by turns: each loads it until the other has changed it. */
static void *hand_over(void *number) {
    int own = *(int *)number;
    begin_as(own);
    for (int i = 0; i < HAND_OVERS; i++) {
        while ((int)(atomic_load(&shared) % 2) != own) {}
        atomic_fetch_add(&shared, 1);
    }
    return NULL;
}

static void *pause_often(void *number) {
    begin_as(*(int *)number);
    for (int i = 0; i < CHANGES; i++) MOMENT();
    return NULL;
}

static void print_cost(const char *what, void *(*work)(void *), int threads, int times) {
    struct spread spread = time_of(open_line, work, threads);
    double changes = (double)threads * times;
    printf("%-52s | %6.1f %6.1f %6.1f\n", what, spread.best / changes, spread.median / changes, spread.worst / changes);
}

void calibrate(void) {
    long processors = sysconf(_SC_NPROCESSORS_ONLN);
    printf("%-52s | %20s\n", "nanoseconds", "best, median, worst");
    print_cost("a pause", pause_often, 1, CHANGES);
    print_cost("a change of a line at hand", change_the_line, 1, CHANGES);
    if (processors < 2) return;
    print_cost("a change of a line that two processors change", change_the_line, 2, CHANGES);
    print_cost("a transfer: half a change after another's, seen first", hand_over, 2, 2 * HAND_OVERS);
    if (processors < MOST_THREADS) return;
    print_cost("a change of a line that three processors change", change_the_line, 3, CHANGES);
    print_cost("a change of a line that four processors change", change_the_line, MOST_THREADS, CHANGES);
}
