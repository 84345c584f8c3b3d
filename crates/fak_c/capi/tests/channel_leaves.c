/* How the seats of a channel leave: in each order, as ends and by steps; what the last one drops; and wake-ups of and by those that are
 * called by steps. */
#include "channel_tests.h"

#include <pthread.h>

enum { SEATS = 3, CELLS = 9, STINT = 100, ORDERS = 6, WAYS = 27, LEAVERS = 4 };

/* ---- Each order, and each way ---- */

/* How a seat is called and leaves: as an end; by steps, and at last as an end; or by steps. */
enum { AS_END, END_AT_LAST, BY_STEPS };

typedef struct {
    fak_channel_waiting waiting;
    fak_c_seat seats[SEATS];
    fak_channel_end ends[SEATS];
    int ways[SEATS];
    uint64_t dropped; /* the numbers of the items, as digits */
} channel;

static bool never_parks(void *context, uint64_t number, uint64_t deadline) {
    (void)context, (void)number, (void)deadline;
    return false;
}

static void wakes_nobody(void *context, uint64_t number) {
    (void)context, (void)number;
}

/* Notes an item that is dropped. */
static void note(void *dropped, const fak_channel_item *item) {
    *(uint64_t *)dropped = 10 * *(uint64_t *)dropped + item->word[0];
}

static fak_c_seat *seat_of(channel *self, int index) {
    return self->ends[index].seat.at != NULL ? &self->ends[index].seat : &self->seats[index];
}

static void make_end(channel *self, int index) {
    CHECK(fak_channel_end_of(&self->seats[index], &self->waiting, &self->ends[index]) == FAK_C_OK);
}

/* The way of each seat is a digit of `ways`. */
static void open_channel(channel *self, int ways) {
    *self = (channel){.waiting = {never_parks, wakes_nobody, NULL, NULL, 0, SEATS, 0}};
    CHECK(fak_channel_open(self->seats, SEATS, CELLS, STINT) == FAK_C_OK);
    for (int i = 0; i < SEATS; i++, ways /= 3) {
        self->ways[i] = ways % 3;
        if (self->ways[i] == AS_END)
            make_end(self, i);
    }
}

/* Takes the steps of a call that never sleeps. Wakes nobody: nobody sleeps. */
static void take_steps(fak_c_seat *seat, fak_channel_item *item) {
    uint64_t number = 0;
    int32_t code;
    do
        code = fak_channel_step(seat, item, &number);
    while (code == FAK_C_NOT_YET);
    CHECK(code == FAK_C_OK);
}

static void send_by_steps(fak_c_seat *seat, uint64_t word) {
    fak_channel_item item = fak_channel_of_word(word);
    CHECK(fak_channel_begin_send(seat, &item) == FAK_C_OK);
    take_steps(seat, &item);
}

static uint64_t receive_by_steps(fak_c_seat *seat) {
    fak_channel_item item = {{0}};
    CHECK(fak_channel_begin_receive(seat) == FAK_C_OK);
    take_steps(seat, &item);
    return item.word[0];
}

static void leave(channel *self, int index) {
    if (self->ways[index] == BY_STEPS) {
        CHECK(fak_c_leave(&self->seats[index]) == FAK_C_OK);
        return;
    }
    if (self->ways[index] == END_AT_LAST)
        make_end(self, index);
    CHECK(fak_channel_leave_with(&self->ends[index], note, &self->dropped) == FAK_C_OK);
}

/* A seat that remains receives what was sent. The last one drops the rest, if all have left as ends. */
static void check_leaves(int ways, const int *order) {
    channel self;
    bool drops = true;
    open_channel(&self, ways);
    for (uint64_t word = 1; word <= 5; word++)
        send_by_steps(seat_of(&self, (int)(word % SEATS)), word);
    for (int i = 0; i < SEATS; i++)
        drops = drops && self.ways[i] != BY_STEPS;
    for (int i = 0; i < SEATS; i++) {
        leave(&self, order[i]);
        if (i + 1 < SEATS)
            CHECK(self.dropped == 0 && receive_by_steps(seat_of(&self, order[i + 1])) == (uint64_t)i + 1);
    }
    CHECK(self.dropped == (drops ? 345 : 0) && self.waiting.ends == 0);
}

static void seats_leave_in_each_order(void) {
    static const int orders[ORDERS][SEATS] = {{0, 1, 2}, {0, 2, 1}, {1, 0, 2}, {1, 2, 0}, {2, 0, 1}, {2, 1, 0}};
    for (int ways = 0; ways < WAYS; ways++)
        for (int i = 0; i < ORDERS; i++)
            check_leaves(ways, orders[i]);
}

/* Without the number of seats nobody knows which end is the last, so none may drop. */
static void drops_need_the_number_of_seats(void) {
    channel self;
    open_channel(&self, 0);
    self.waiting.seats = 0;
    send_by_steps(seat_of(&self, 0), 1);
    for (int i = 0; i < SEATS; i++) {
        CHECK(fak_channel_leave_with(&self.ends[i], note, &self.dropped) == FAK_C_BAD_LIMIT && self.ends[i].seat.at != NULL);
        CHECK(fak_channel_leave(&self.ends[i]) == FAK_C_OK && self.ends[i].seat.at == NULL && self.dropped == 0);
    }
}

/* A shared channel, and a seat that is called by steps: what it leaves is received there. */
static void shared_ends_leave_the_items_to_others(void) {
    enum { SHARED = FAK_CHANNEL_SHARED_ENDS(1, 1) };
    for (int is_counted = 0; is_counted < 2; is_counted++) {
        fak_channel_waiting waiting = {never_parks, wakes_nobody, NULL, NULL, 0, is_counted ? SHARED + 1 : 0, 0};
        fak_c_seat seats[SHARED + 1] = {0};
        fak_channel_end ends[SHARED] = {0};
        fak_channel_shared shared = {0};
        fak_channel_item item = fak_channel_of_word(7);
        uint64_t dropped = 0;
        CHECK(fak_channel_open(seats, SHARED + 1, CELLS, STINT) == FAK_C_OK);
        for (int i = 0; i < SHARED; i++)
            CHECK(fak_channel_end_of(&seats[i], &waiting, &ends[i]) == FAK_C_OK);
        CHECK(fak_channel_shared_over(&shared, ends, 1, 1) == FAK_C_OK && fak_channel_shared_send(&shared, &item) == FAK_C_OK);
        CHECK(fak_channel_shared_leave_with(&shared, note, &dropped) == (is_counted ? FAK_C_OK : FAK_C_BAD_LIMIT));
        for (int i = 0; i < SHARED; i++)
            CHECK((ends[i].seat.at == NULL) == (is_counted == 1));
        CHECK(is_counted || fak_channel_shared_leave(&shared) == FAK_C_OK);
        CHECK(dropped == 0 && receive_by_steps(&seats[SHARED]) == 7 && fak_c_leave(&seats[SHARED]) == FAK_C_OK);
    }
}

/* ---- Ends that sleep on futexes ---- */

/* A last end that has used up its stint drops nothing. One whose stint runs out meanwhile drops the oldest items. */
static void a_used_up_stint_ends_the_drops(bool is_used_up) {
    enum { SENDERS = 8, FEW = 5 };
    fak_channel_end ends[SENDERS + 1] = {0};
    uint64_t sent = 0, dropped = 0, all = 0;
    CHECK(fak_channel_open_ends(ends, SENDERS + 1, 100, FEW) == FAK_C_OK);
    for (int i = is_used_up ? 0 : 1; i <= SENDERS; i++) {
        fak_channel_item item = fak_channel_of_word(sent % 10);
        while (fak_channel_send(&ends[i], &item) == FAK_C_OK)
            item = fak_channel_of_word(++sent % 10);
    }
    for (int i = SENDERS; i >= 0; i--)
        CHECK(fak_channel_leave_with(&ends[i], note, &dropped) == FAK_C_OK && (i == 0 || dropped == 0));
    CHECK(sent > FEW && (dropped == 0) == is_used_up);
    for (uint64_t i = 0; i < FEW && all != dropped; i++)
        all = 10 * all + i % 10;
    CHECK(all == dropped);
}

/* The last sender leaves: the channel is open, and a receiver sleeps on. */
static void a_leave_does_not_close(void) {
    fak_channel_end ends[2] = {0};
    fak_channel_item item = fak_channel_of_word(7);
    bool is_closed = true;
    CHECK(fak_channel_open_ends(ends, 2, CELLS, STINT) == FAK_C_OK && fak_channel_send(&ends[0], &item) == FAK_C_OK);
    CHECK(fak_channel_leave(&ends[0]) == FAK_C_OK && fak_channel_receive(&ends[1], &item) == FAK_C_OK);
    CHECK(fak_channel_receive_until(&ends[1], &item, fak_channel_deadline(A_WHILE)) == FAK_C_GAVE_UP);
    CHECK(fak_channel_is_closed(&ends[1].seat, &is_closed) == FAK_C_OK && !is_closed && fak_channel_leave(&ends[1]) == FAK_C_OK);
}

/* A call by steps is about to wake an end. This one finds the item by itself, and leaves. The wake-up finds its token still there. */
static void a_wake_up_may_come_after_the_leave(void) {
    fak_channel_end ends[2] = {0};
    fak_channel_item item = fak_channel_of_word(7), received = {{0}};
    uint64_t number = 99, unused = 99;
    int32_t code;
    CHECK(fak_channel_open_ends(ends, 2, CELLS, STINT) == FAK_C_OK && fak_channel_begin_receive(&ends[1].seat) == FAK_C_OK);
    while ((code = fak_channel_step(&ends[1].seat, &received, &unused)) != FAK_C_SLEEPS)
        CHECK(code == FAK_C_NOT_YET);
    CHECK(fak_channel_begin_send(&ends[0].seat, &item) == FAK_C_OK);
    while ((code = fak_channel_step(&ends[0].seat, &item, &number)) != FAK_C_WAKES)
        CHECK(code == FAK_C_NOT_YET);
    CHECK(number == 1);
    take_steps(&ends[1].seat, &received);
    CHECK(received.word[0] == 7 && fak_channel_leave(&ends[1]) == FAK_C_OK);
    ends[0].waiting->unpark(ends[0].waiting->context, number);
    take_steps(&ends[0].seat, &item);
    CHECK(fak_channel_leave(&ends[0]) == FAK_C_OK);
}

static void *receive_seven(void *end) {
    fak_channel_item item = {{0}};
    CHECK(fak_channel_receive(end, &item) == FAK_C_OK && item.word[0] == 7);
    return NULL;
}

/* A send by steps wakes an end that sleeps on its futex. */
static void steps_wake_a_sleeping_end(void) {
    fak_channel_end ends[2] = {0};
    fak_channel_item item = fak_channel_of_word(7);
    uint64_t number = 99;
    int32_t code;
    pthread_t thread;
    CHECK(fak_channel_open_ends(ends, 2, CELLS, STINT) == FAK_C_OK);
    CHECK(pthread_create(&thread, NULL, receive_seven, &ends[1]) == 0);
    rest_a_while();
    CHECK(fak_channel_begin_send(&ends[0].seat, &item) == FAK_C_OK);
    while ((code = fak_channel_step(&ends[0].seat, &item, &number)) != FAK_C_OK)
        if (code == FAK_C_WAKES)
            ends[0].waiting->unpark(ends[0].waiting->context, number);
    CHECK(pthread_join(thread, NULL) == 0);
    for (int i = 0; i < 2; i++)
        CHECK(fak_channel_leave(&ends[i]) == FAK_C_OK);
}

void each_leave_is_counted(void) {
    seats_leave_in_each_order();
    drops_need_the_number_of_seats();
    shared_ends_leave_the_items_to_others();
    a_used_up_stint_ends_the_drops(true);
    a_used_up_stint_ends_the_drops(false);
    a_leave_does_not_close();
    a_wake_up_may_come_after_the_leave();
    steps_wake_a_sleeping_end();
}

/* ---- Threads that leave at once ---- */

typedef struct {
    pthread_t thread;
    fak_channel_end *end;
    uint64_t *dropped;
} leaver;

static pthread_barrier_t all_ready;

static void count(void *dropped, const fak_channel_item *item) {
    *(uint64_t *)dropped += item->word[0];
}

static void *send_and_leave(void *argument) {
    leaver *self = argument;
    fak_channel_item item = fak_channel_of_word(1);
    CHECK(fak_channel_send(self->end, &item) == FAK_C_OK);
    pthread_barrier_wait(&all_ready);
    CHECK(fak_channel_leave_with(self->end, count, self->dropped) == FAK_C_OK);
    return NULL;
}

/* One of several threads that leave at once is the last, and drops what all have sent. */
void leaves_race(uint64_t rounds) {
    CHECK(pthread_barrier_init(&all_ready, NULL, LEAVERS) == 0);
    for (uint64_t round = 0; round < rounds; round++) {
        fak_channel_end ends[LEAVERS] = {0};
        leaver leavers[LEAVERS];
        uint64_t dropped = 0;
        CHECK(fak_channel_open_ends(ends, LEAVERS, CELLS, STINT) == FAK_C_OK);
        for (int i = 0; i < LEAVERS; i++) {
            leavers[i] = (leaver){.end = &ends[i], .dropped = &dropped};
            CHECK(pthread_create(&leavers[i].thread, NULL, send_and_leave, &leavers[i]) == 0);
        }
        for (int i = 0; i < LEAVERS; i++)
            CHECK(pthread_join(leavers[i].thread, NULL) == 0);
        CHECK(dropped == LEAVERS);
    }
    CHECK(pthread_barrier_destroy(&all_ready) == 0);
}
