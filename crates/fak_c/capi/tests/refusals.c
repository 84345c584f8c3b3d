/* Counts how often a queue refuses a deletion as FAK_C_EMPTY although an item lies in it for the whole call, and an insertion as
 * FAK_C_FULL although a cell is free for the whole call. Both may happen, so no thread may sleep on a refusal.
 *
 * Pollers delete from an empty queue without end. In each round one thread inserts an item and then deletes. If it is refused, it
 * publishes the round, and waits until a poller has the item. If that poller read the round before it began its call, the item was
 * in the queue from before the refused call until after it. The second half does the same with a full queue, and pollers that
 * insert.
 *
 * usage: refusals [ROUNDS [POLLERS [CELLS]]]. By default 100,000 rounds, 1 poller and 4 cells.
 *
 * It prints what it counted. It fails only if an item is lost or doubled, never because of how often something happened. */
#include "tests.h"

#include <pthread.h>
#include <sched.h>
#include <stdatomic.h>

enum { MOST_POLLERS = 8 };

/* A whole call of one kind. Returns whether it was granted. */
typedef bool (*call)(fak_c_seat *seat);

/* What one half counts. */
typedef struct {
    unsigned long own;     /* the round's second call was granted */
    unsigned long passing; /* it was refused; a poller's call that began before the refusal was granted */
    unsigned long wrong;   /* it was refused; a poller's call that began after the refusal was granted */
} counts;

static fak_c_seat seats[MOST_POLLERS + 1];
static call polls;
static atomic_bool stops;
static atomic_ulong refused; /* the round that was refused last */
static atomic_ulong granted; /* 0, or 1 more than twice the round that a poller read before its call was granted */

static bool put_one(fak_c_seat *seat) {
    int32_t code = fak_c_put(seat, 7, NULL);
    if (code == FAK_C_FULL)
        return false;
    while (code == FAK_C_NOT_YET) {
        sched_yield();
        code = fak_c_try_fill(seat);
    }
    CHECK(code == FAK_C_OK);
    return true;
}

static bool get_one(fak_c_seat *seat) {
    uint64_t item = 0;
    int32_t code = fak_c_get(seat, NULL, &item);
    if (code == FAK_C_EMPTY)
        return false;
    while (code == FAK_C_NOT_YET) {
        sched_yield();
        code = fak_c_try_take(seat, &item);
    }
    CHECK(code == FAK_C_OK && item == 7);
    return true;
}

static void *poll_without_end(void *seat) {
    while (!atomic_load(&stops)) {
        unsigned long round = atomic_load(&refused);
        if (polls(seat))
            atomic_store(&granted, 2 * round + 1);
    }
    return NULL;
}

/* Waits until a poller's call is granted. Returns the round that the poller had read before. */
static unsigned long wait_for_poller(void) {
    unsigned long found;
    while ((found = atomic_exchange(&granted, 0)) == 0)
        sched_yield();
    return found / 2;
}

/* One round: `first` makes room for `second`, which a poller may take. */
static void play_round(fak_c_seat *seat, call first, call second, unsigned long round, counts *counted) {
    while (!first(seat))
        sched_yield();
    if (second(seat)) {
        counted->own++;
        return;
    }
    atomic_store(&refused, round);
    if (wait_for_poller() == round)
        counted->wrong++;
    else
        counted->passing++;
}

/* All rounds, while these pollers poll. */
static counts play(fak_c_seat *seat, int pollers, call first, call second, unsigned long rounds) {
    pthread_t threads[MOST_POLLERS];
    counts counted = {0, 0, 0};
    polls = second;
    atomic_store(&stops, false);
    atomic_store(&refused, 0);
    for (int i = 0; i < pollers; i++)
        CHECK(pthread_create(&threads[i], NULL, poll_without_end, &seats[i]) == 0);
    for (unsigned long round = 1; round <= rounds; round++)
        play_round(seat, first, second, round, &counted);
    atomic_store(&stops, true);
    for (int i = 0; i < pollers; i++)
        pthread_join(threads[i], NULL);
    CHECK(counted.own + counted.passing + counted.wrong == rounds && atomic_load(&granted) == 0);
    return counted;
}

/* One half, in a queue that holds this number of items between two rounds. */
static void count_refusals(const char *code, int pollers, uint64_t cells, bool is_full, unsigned long rounds) {
    fak_c_seat *seat = &seats[pollers];
    counts counted;
    uint64_t items = 0;
    CHECK(fak_c_open(seats, (size_t)pollers + 1, cells, LONG_STINT) == FAK_C_OK);
    while (is_full && put_one(seat))
        items++;
    CHECK(items == (is_full ? cells : 0));
    counted = is_full ? play(seat, pollers, get_one, put_one, rounds) : play(seat, pollers, put_one, get_one, rounds);
    while (get_one(seat))
        items--;
    CHECK(items == 0);
    for (int i = 0; i <= pollers; i++)
        CHECK(fak_c_leave(&seats[i]) == FAK_C_OK);
    printf("%s in %lu rounds with %d pollers: %lu, of which %lu were wrong for the whole call\n", code, rounds, pollers,
        counted.passing + counted.wrong, counted.wrong);
}

int main(int count, char **words) {
    unsigned long rounds = count > 1 ? strtoul(words[1], NULL, 10) : 100000;
    int pollers = count > 2 ? atoi(words[2]) : 1;
    uint64_t cells = count > 3 ? strtoull(words[3], NULL, 10) : 4;
    if (count > 4 || rounds == 0 || pollers < 1 || pollers > MOST_POLLERS || !FAK_C_IS_SIZE(cells)) {
        fprintf(stderr, "usage: refusals [ROUNDS [POLLERS [CELLS]]], with 1 to %d pollers\n", MOST_POLLERS);
        return 2;
    }
    count_refusals("FAK_C_EMPTY", pollers, cells, false, rounds);
    count_refusals("FAK_C_FULL", pollers, cells, true, rounds);
    return 0;
}
