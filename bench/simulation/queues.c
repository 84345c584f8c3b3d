/* The queues of the model, each by the accesses of its calls. */
#include <stdlib.h>
#include <string.h>
#include "model.h"

/* As `fak_queue` pauses: fewest tickets between two pauses, and the pauses for which a seat saves tickets. */
enum { BETWEEN_PAUSES = 16, SAVED_PAUSES = 4, MOST_CELLS = 4096 };

struct word { struct line line; int64_t value; };

static int pauses;
static struct line turn_lines[MOST_CELLS], item_lines[MOST_CELLS];
static int64_t turns[MOST_CELLS];

static struct line *turn_line(int64_t cell, int in_a_line) { return &turn_lines[cell / in_a_line]; }
static struct line *item_line(int64_t cell, int in_a_line) { return &item_lines[cell / in_a_line]; }

/* This queue. A seat expects in each count what it left there, and so knows whether others change it. */

enum { UPPER, LOWER, COUNTS, TURNS_IN_A_LINE = 8, SLOTS_IN_A_LINE = 4 };

struct seat { int64_t expected[COUNTS], drawn, saved; int is_contended; };

static struct word counts[COUNTS], draws[COUNTS];
static struct seat seats[MOST_PROCESSORS];

static void open_by_addition(void) {
    memset(counts, 0, sizeof counts);
    memset(draws, 0, sizeof draws);
    memset(seats, 0, sizeof seats);
    memset(turns, 0, sizeof turns);
}

/* Pauses if others changed a count, and the seat has drawn tickets enough. */
static void pause_where_contended(struct seat *seat) {
    if (!pauses || !seat->is_contended) return;
    seat->is_contended = 0;
    int64_t saved = seat->saved + seat->drawn;
    if (saved > SAVED_PAUSES * tickets_for_a_pause) saved = SAVED_PAUSES * tickets_for_a_pause;
    if (seat->drawn < BETWEEN_PAUSES || saved < tickets_for_a_pause) return;
    seat->drawn = 0;
    seat->saved = saved - tickets_for_a_pause;
    spend(costs.seat_pause);
}

static int has_room(int which) { return which == UPPER ? counts[UPPER].value < cells : counts[LOWER].value > 0; }

static void add(int which, int64_t change) {
    change_line(&counts[which].line);
    counts[which].value += change;
}

/* Tests the count, adds to it and tests again what it found. */
static int claim(struct seat *seat, int which, int64_t change) {
    pause_where_contended(seat);
    load_line(&counts[which].line);
    if (counts[which].value != seat->expected[which]) seat->is_contended = 1;
    seat->expected[which] = counts[which].value;
    if (!has_room(which)) return 0;
    change_line(&counts[which].line);
    int is_granted = has_room(which);
    counts[which].value += change;
    if (is_granted) return 1;
    add(which, -change);
    count_failure();
    return 0;
}

/* Claims, draws a ticket, waits for the turn of its cell, passes the cell on and ends the call. */
static void pass_by_addition(int which, int64_t change, int odd) {
    struct seat *seat = &seats[this_processor()];
    for (int round = 0; !claim(seat, which, change); round++) pause_for(round);
    change_line(&draws[which].line);
    int64_t ticket = draws[which].value++, cell = ticket % cells, turn = ticket / cells * 2 + odd;
    for (int round = 0; load_line(turn_line(cell, TURNS_IN_A_LINE)), turns[cell] != turn; round++) pause_for(round);
    store_line(item_line(cell, SLOTS_IN_A_LINE));
    change_line(turn_line(cell, TURNS_IN_A_LINE));
    turns[cell] = turn + 1;
    add(COUNTS - 1 - which, change);
    seat->drawn++;
    seat->expected[UPPER] += change;
    seat->expected[LOWER] += change;
}

static void put_by_addition(void) { pass_by_addition(UPPER, 1, 0); }
static void get_by_addition(void) { pass_by_addition(LOWER, -1, 1); }

/* A ring by compare-and-swap, D. Vyukov's. A cell has its turn next to its item. */

enum { CELLS_IN_A_LINE = 4 };

static void open_by_swap(void) {
    memset(draws, 0, sizeof draws);
    for (int i = 0; i < cells; i++) turns[i] = i;
}

/* Draws a ticket whose cell has this turn; returns -1 if the queue is full or empty. */
static int64_t draw_by_swap(struct word *counter, int64_t ahead) {
    load_line(&counter->line);
    int64_t ticket = counter->value;
    for (;;) {
        load_line(turn_line(ticket % cells, CELLS_IN_A_LINE));
        int64_t early = turns[ticket % cells] - (ticket + ahead);
        if (early < 0) return -1;
        if (early > 0) {
            load_line(&counter->line);
            ticket = counter->value;
            continue;
        }
        change_line(&counter->line);
        if (counter->value == ticket) {
            counter->value++;
            return ticket;
        }
        count_failure();
        ticket = counter->value;
    }
}

static void pass_by_swap(int which, int64_t ahead, int64_t next) {
    int64_t ticket = draw_by_swap(&draws[which], ahead);
    for (int round = 0; ticket < 0; round++) {
        pause_for(round);
        ticket = draw_by_swap(&draws[which], ahead);
    }
    store_line(turn_line(ticket % cells, CELLS_IN_A_LINE));
    turns[ticket % cells] = ticket + next;
}

static void put_by_swap(void) { pass_by_swap(UPPER, 0, 1); }
static void get_by_swap(void) { pass_by_swap(LOWER, 1, cells); }

/* A ring under a lock; both ends of the ring are in one line. */

enum { ITEMS_IN_A_LINE = 8 };

static struct word lock_word, ring;
static int64_t first_item;
static struct node { struct line line; int behind, is_granted; } nodes[MOST_PROCESSORS];

static void open_under_lock(void) {
    memset(&lock_word, 0, sizeof lock_word);
    memset(&ring, 0, sizeof ring);
    memset(nodes, 0, sizeof nodes);
    first_item = 0;
}

/* A lock by one word that is set if it is found free. A processor that waits looks again after a pause. */
static void lock_by_word(void) {
    for (int round = 0;; round++) {
        load_line(&lock_word.line);
        if (!lock_word.value) {
            change_line(&lock_word.line);
            if (!lock_word.value) break;
        }
        pause_for(round);
    }
    lock_word.value = 1;
}

static void unlock_by_word(void) {
    store_line(&lock_word.line);
    lock_word.value = 0;
}

/* A lock by a chain: each that waits watches a word of its own. The word of the lock is 1 more than the last one's number. */
static void lock_by_chain(void) {
    struct node *own = &nodes[this_processor()];
    store_line(&own->line);
    own->behind = -1;
    own->is_granted = 0;
    change_line(&lock_word.line);
    int64_t before = lock_word.value - 1;
    lock_word.value = this_processor() + 1;
    if (before < 0) return;
    store_line(&nodes[before].line);
    nodes[before].behind = this_processor();
    for (load_line(&own->line); !own->is_granted; load_line(&own->line)) await_change(&own->line);
}

static void unlock_by_chain(void) {
    struct node *own = &nodes[this_processor()];
    load_line(&own->line);
    if (own->behind < 0) {
        change_line(&lock_word.line);
        if (lock_word.value == this_processor() + 1) {
            lock_word.value = 0;
            return;
        }
        for (load_line(&own->line); own->behind < 0; load_line(&own->line)) await_change(&own->line);
    }
    store_line(&nodes[own->behind].line);
    nodes[own->behind].is_granted = 1;
}

/* Under the lock: the ring's ends, then the item. */
static int pass_at_end(int puts) {
    load_line(&ring.line);
    if (puts ? ring.value == cells : ring.value == 0) return 0;
    store_line(&ring.line);
    int64_t cell = puts ? (first_item + ring.value) % cells : first_item;
    if (!puts) first_item = (first_item + 1) % cells;
    ring.value += puts ? 1 : -1;
    if (puts) store_line(item_line(cell, ITEMS_IN_A_LINE));
    else load_line(item_line(cell, ITEMS_IN_A_LINE));
    return 1;
}

static void pass_under(void (*lock)(void), void (*unlock)(void), int puts) {
    for (int round = 0;; round++) {
        lock();
        int is_passed = pass_at_end(puts);
        unlock();
        if (is_passed) return;
        pause_for(round);
    }
}

static void put_by_chain(void) { pass_under(lock_by_chain, unlock_by_chain, 1); }
static void get_by_chain(void) { pass_under(lock_by_chain, unlock_by_chain, 0); }
static void put_by_word(void) { pass_under(lock_by_word, unlock_by_word, 1); }
static void get_by_word(void) { pass_under(lock_by_word, unlock_by_word, 0); }

const struct queue queues[QUEUES] = {
    { "this queue", BY_TRANSFER, 0, open_by_addition, put_by_addition, get_by_addition },
    { "this queue, with pauses", BY_TRANSFER, 1, open_by_addition, put_by_addition, get_by_addition },
    { "compare-and-swap ring", BY_TRANSFER, 0, open_by_swap, put_by_swap, get_by_swap },
    { "ring under a fair lock", BY_TRANSFER, 0, open_under_lock, put_by_chain, get_by_chain },
    { "ring under a plain lock", BY_TRANSFER, 0, open_under_lock, put_by_word, get_by_word },
    { "this queue, in the memory", BY_MEMORY, 0, open_by_addition, put_by_addition, get_by_addition },
    { "this queue, combined", BY_COMBINING, 0, open_by_addition, put_by_addition, get_by_addition },
};

static const struct queue *queue;

/* One processor puts and gets; of several, every other one puts. */
static void use_queue(void) {
    int is_alone = processors_in_all() == 1, puts = this_processor() % 2 == 0;
    for (;;) {
        work_aside();
        if (puts) queue->put();
        if (is_alone) work_aside();
        if (is_alone || !puts) {
            queue->get();
            count_item();
        }
    }
}

struct tally measure(const struct queue *measured, int processors, long items, uint64_t seed) {
    queue = measured;
    pauses = queue->pauses;
    memset(turn_lines, 0, sizeof turn_lines);
    memset(item_lines, 0, sizeof item_lines);
    queue->open();
    return simulate(processors, queue->machine, items, seed, use_queue);
}
