/* Callers that wait: for ends of a shared channel, until deadlines, by ends that were moved or of which some are worn, and while signals
 * come. Most of them park in a lot of the test's own, which knows who waits where. */
#include "channel_lot.h"
#include "channel_tests.h"

#include <sched.h>
#include <signal.h>
#include <stdatomic.h>

enum { MANY = 70, CELLS = 8, STINT = 100 };

/* ---- One call of a thread ---- */

/* A send or a receive, by an end or shared, what it returned, and the processor time that it took. */
typedef struct {
    pthread_t thread;
    fak_channel_end *end;
    fak_channel_shared *shared;
    bool sends;
    uint64_t deadline;
    int32_t code;
    uint64_t time;
} caller;

static int32_t call(const caller *self) {
    fak_channel_item item = fak_channel_of_word(1);
    if (self->end != NULL)
        return self->sends ? fak_channel_send_until(self->end, &item, self->deadline)
                           : fak_channel_receive_until(self->end, &item, self->deadline);
    return self->sends ? fak_channel_shared_send_until(self->shared, &item, self->deadline)
                       : fak_channel_shared_receive_until(self->shared, &item, self->deadline);
}

static void *call_once(void *argument) {
    caller *self = argument;
    uint64_t before = processor_time();
    self->code = call(self);
    self->time = processor_time() - before;
    return NULL;
}

static void start(caller *self, caller how) {
    *self = how;
    CHECK(pthread_create(&self->thread, NULL, call_once, self) == 0);
}

/* The call returns this code, and has taken little processor time while it slept. */
static void check_return(caller *self, int32_t code) {
    CHECK(pthread_join(self->thread, NULL) == 0);
    CHECK(self->code == code && self->time < 50000000);
}

static void send_one(fak_channel_shared *shared) {
    fak_channel_item item = fak_channel_of_word(1);
    CHECK(fak_channel_shared_send(shared, &item) == FAK_C_OK);
}

/* Ends the wait of a caller: a receive ends that of a sender. */
static void end_one(fak_channel_shared *shared, bool sends) {
    fak_channel_item item = {{0}};
    if (sends)
        CHECK(fak_channel_shared_receive(shared, &item) == FAK_C_OK);
    else
        send_one(shared);
}

/* ---- Ends that are lent ---- */

/* A shared channel of one cell in a lot, with this many ends on the side of senders or receivers, and one on the other. If senders wait, it
 * is full. */
typedef struct {
    lot lot;
    fak_channel_waiting waiting;
    fak_channel_end ends[FAK_CHANNEL_SHARED_ENDS(1, MANY)];
    fak_channel_shared shared;
    bool sends;
    uint64_t first; /* the number of the first end of the side */
    uint64_t place; /* the number at which callers wait for one */
} side;

static void open_side(side *self, size_t count, bool sends) {
    size_t senders = sends ? count : 1, receivers = sends ? 1 : count, all = FAK_CHANNEL_SHARED_ENDS(senders, receivers);
    *self = (side){.sends = sends, .first = sends ? 2 : 3, .place = sends ? 0 : 1};
    make_lot(&self->lot, all);
    open_in(&self->lot, &self->waiting, self->ends, all, 1);
    CHECK(fak_channel_shared_over(&self->shared, self->ends, senders, receivers) == FAK_C_OK);
    if (sends)
        send_one(&self->shared);
}

static void leave_side(side *self) {
    CHECK(fak_channel_shared_leave(&self->shared) == FAK_C_OK && self->waiting.ends == 0);
    free_lot(&self->lot);
}

/* How a caller of this side calls. */
static caller of_side(side *self, uint64_t deadline) {
    return (caller){.shared = &self->shared, .sends = self->sends, .deadline = deadline};
}

/* More callers than a word has bits sleep at once, each by an end of its own. */
static void many_callers_sleep(bool sends) {
    static side self;
    static caller callers[MANY];
    open_side(&self, MANY, sends);
    for (int i = 0; i < MANY; i++)
        start(&callers[i], of_side(&self, FAK_CHANNEL_NEVER));
    for (int i = 0; i < MANY; i++)
        wait_until_parked(&self.lot, self.first + (uint64_t)i, 1);
    for (int i = 0; i < MANY; i++)
        end_one(&self.shared, sends);
    for (int i = 0; i < MANY; i++)
        check_return(&callers[i], FAK_C_OK);
    leave_side(&self);
}

/* Two callers wait for an end. Both ends of their side come back before one of the two wakes up. Each gets one, and sleeps by it. */
static void two_loans_come_back_at_once(bool sends) {
    static side self;
    caller callers[4];
    open_side(&self, 2, sends);
    for (int i = 0; i < 2; i++)
        start(&callers[i], of_side(&self, FAK_CHANNEL_NEVER));
    for (int i = 0; i < 2; i++)
        wait_until_parked(&self.lot, self.first + (uint64_t)i, 1);
    for (int i = 2; i < 4; i++)
        start(&callers[i], of_side(&self, FAK_CHANNEL_NEVER));
    wait_until_parked(&self.lot, self.place, 2);
    hold(&self.lot, self.place);
    for (int i = 0; i < 2; i++)
        end_one(&self.shared, sends);
    for (int i = 0; i < 2; i++)
        check_return(&callers[i], FAK_C_OK);
    release(&self.lot, self.place);
    for (int i = 0; i < 2; i++)
        wait_until_parked(&self.lot, self.first + (uint64_t)i, 1);
    CHECK(fak_channel_shared_close(&self.shared) == FAK_C_OK);
    for (int i = 2; i < 4; i++)
        check_return(&callers[i], FAK_C_CLOSED);
    leave_side(&self);
}

/* A caller waits for the only end until its deadline, also if it is woken for nothing, and gets the end if it comes back before. */
static void a_wait_for_an_end_has_a_deadline(bool sends) {
    static side self;
    caller callers[3];
    uint64_t hours = fak_channel_deadline(UINT64_C(36000000000000)), soon = fak_channel_deadline(2 * A_WHILE);
    open_side(&self, 1, sends);
    start(&callers[0], of_side(&self, FAK_CHANNEL_NEVER));
    wait_until_parked(&self.lot, self.first, 1);
    CHECK(deadline_at(&self.lot, self.first) == FAK_CHANNEL_NEVER);
    start(&callers[1], of_side(&self, soon));
    check_return(&callers[1], FAK_C_GAVE_UP);
    CHECK(deadline_at(&self.lot, self.place) == soon && fak_channel_deadline(0) >= soon);
    start(&callers[1], of_side(&self, hours));
    wait_until_parks(&self.lot, 3);
    self.waiting.unpark(self.waiting.context, self.place);
    wait_until_parks(&self.lot, 4);
    CHECK(deadline_at(&self.lot, self.place) == hours);
    start(&callers[2], of_side(&self, FAK_CHANNEL_NEVER));
    wait_until_parked(&self.lot, self.place, 2);
    CHECK(deadline_at(&self.lot, self.place) == FAK_CHANNEL_NEVER);
    for (int i = 0; i < 3; i++)
        end_one(&self.shared, sends);
    for (int i = 0; i < 3; i++)
        check_return(&callers[i], FAK_C_OK);
    leave_side(&self);
}

/* Ends that were moved are shared: a caller that waits for an end parks at the number of the first one, wherever this was before. */
static void moved_ends_are_shared(bool sends) {
    enum { ALL = FAK_CHANNEL_SHARED_ENDS(1, 1) };
    static fak_channel_end ends[ALL], others[ALL];
    lot self;
    fak_channel_waiting waiting;
    fak_channel_shared shared = {0};
    caller callers[2];
    make_lot(&self, ALL);
    open_in(&self, &waiting, ends, ALL, 1);
    for (int i = 0; i < ALL; i++)
        CHECK(fak_channel_move(&ends[i], &others[ALL - 1 - i]) == FAK_C_OK);
    CHECK(fak_channel_shared_over(&shared, others, 1, 1) == FAK_C_OK);
    if (sends)
        send_one(&shared);
    for (int i = 0; i < 2; i++) {
        uint64_t of_its_end = sends ? 1 : 0, of_the_side = sends ? 3 : 2;
        start(&callers[i], (caller){.shared = &shared, .sends = sends, .deadline = FAK_CHANNEL_NEVER});
        wait_until_parked(&self, i == 0 ? of_its_end : of_the_side, 1);
    }
    for (int i = 0; i < 2; i++)
        end_one(&shared, sends);
    for (int i = 0; i < 2; i++)
        check_return(&callers[i], FAK_C_OK);
    CHECK(fak_channel_shared_leave(&shared) == FAK_C_OK);
    free_lot(&self);
}

/* For longer than a second, by futexes: a caller sleeps in the channel, and two wait for its end. */
static void a_loan_may_last(void) {
    static fak_channel_end ends[FAK_CHANNEL_SHARED_ENDS(1, 1)];
    fak_channel_shared shared = {0};
    caller callers[3];
    CHECK(fak_channel_shared_open(&shared, ends, 1, 1, CELLS, STINT) == FAK_C_OK);
    start(&callers[0], (caller){.shared = &shared, .deadline = FAK_CHANNEL_NEVER});
    rest_a_while();
    start(&callers[1], (caller){.shared = &shared, .deadline = FAK_CHANNEL_NEVER});
    start(&callers[2], (caller){.shared = &shared, .deadline = fak_channel_deadline(UINT64_C(60000000000))});
    CHECK(nanosleep(&(struct timespec){1, 500000000}, NULL) == 0);
    for (int i = 0; i < 3; i++)
        send_one(&shared);
    for (int i = 0; i < 3; i++)
        check_return(&callers[i], FAK_C_OK);
    CHECK(fak_channel_shared_leave(&shared) == FAK_C_OK);
}

/* Receives items by tries until all ends of receivers are worn. Returns how many it got. */
static int receive_by_tries(size_t receivers) {
    enum { SENDERS = 6, FEW = 6 };
    static fak_channel_end ends[FAK_CHANNEL_SHARED_ENDS(SENDERS, 2)];
    fak_channel_shared shared = {0};
    fak_channel_item item = fak_channel_of_word(1);
    int received = 0;
    CHECK(fak_channel_shared_open(&shared, ends, SENDERS, receivers, 100, FEW) == FAK_C_OK);
    while (fak_channel_shared_try_send(&shared, &item) == FAK_C_OK)
        continue;
    while (fak_channel_shared_try_receive(&shared, &item) == FAK_C_OK)
        received++;
    CHECK(fak_channel_shared_try_receive(&shared, &item) == FAK_C_WORN && fak_channel_shared_leave(&shared) == FAK_C_OK);
    return received;
}

/* A try goes on with another end if it has found a worn one. */
static void tries_pass_over_worn_ends(void) {
    CHECK(receive_by_tries(2) > receive_by_tries(1));
}

/* ---- Deadlines of ends ---- */

/* Another end takes the item, or the cell, for which this call was woken. */
typedef struct {
    fak_channel_end *ends;
    bool sends, is_in_time, is_taken;
    int parks;
    uint64_t deadline;
} thief;

static bool parks_and_loses(void *context, uint64_t number, uint64_t deadline) {
    thief *self = context;
    fak_channel_item item = fak_channel_of_word(1);
    CHECK(number == 0 && deadline == self->deadline);
    if (++self->parks > 1)
        return false;
    if (self->sends) {
        CHECK(fak_channel_receive(&self->ends[1], &item) == FAK_C_OK);
        self->is_taken = fak_channel_try_send(&self->ends[2], &item) == FAK_C_OK;
    } else {
        CHECK(fak_channel_send(&self->ends[1], &item) == FAK_C_OK);
        self->is_taken = fak_channel_try_receive(&self->ends[2], &item) == FAK_C_OK;
    }
    return self->is_in_time;
}

static void check_unparked(void *context, uint64_t number) {
    (void)context;
    CHECK(number < 3);
}

/* The call has what it was woken for. If another end was faster, it sleeps again, until the same deadline. */
static void a_lost_race_keeps_the_deadline(bool sends, bool is_in_time) {
    fak_channel_end ends[3] = {0};
    thief self = {.ends = ends, .sends = sends, .is_in_time = is_in_time, .deadline = 77};
    fak_channel_waiting waiting = {parks_and_loses, check_unparked, NULL, &self, 0, 3, 0};
    fak_c_seat seats[3] = {0};
    fak_channel_item item = fak_channel_of_word(1);
    int32_t code;
    CHECK(fak_channel_open(seats, 3, 1, STINT) == FAK_C_OK);
    for (int i = 0; i < 3; i++)
        CHECK(fak_channel_end_of(&seats[i], &waiting, &ends[i]) == FAK_C_OK);
    CHECK(!sends || fak_channel_send(&ends[1], &item) == FAK_C_OK);
    code = sends ? fak_channel_send_until(&ends[0], &item, 77) : fak_channel_receive_until(&ends[0], &item, 77);
    CHECK(code == (self.is_taken ? FAK_C_GAVE_UP : FAK_C_OK) && self.parks == (self.is_taken ? 2 : 1));
    for (int i = 0; i < 3; i++)
        CHECK(fak_channel_leave(&ends[i]) == FAK_C_OK);
}

/* A sleep until a deadline takes no processor time, and does not end before. One for hours ends with an item. */
static void timed_sleeps_last(void) {
    fak_channel_end ends[3] = {0};
    fak_channel_item item = fak_channel_of_word(1);
    caller callers[2];
    uint64_t now = fak_channel_deadline(0), then = fak_channel_deadline(900000000);
    uint64_t hours = UINT64_C(36000000000000), from_now = fak_channel_deadline(hours) - now;
    CHECK(from_now >= hours && from_now < hours + UINT64_C(60000000000));
    CHECK(fak_channel_open_ends(ends, 3, CELLS, STINT) == FAK_C_OK);
    start(&callers[0], (caller){.end = &ends[0], .deadline = then});
    check_return(&callers[0], FAK_C_GAVE_UP);
    CHECK(fak_channel_deadline(0) >= then);
    start(&callers[0], (caller){.end = &ends[0], .deadline = fak_channel_deadline(hours)});
    start(&callers[1], (caller){.end = &ends[1], .deadline = FAK_CHANNEL_NEVER - 1});
    rest_a_while();
    for (int i = 0; i < 2; i++)
        CHECK(fak_channel_send(&ends[2], &item) == FAK_C_OK);
    for (int i = 0; i < 2; i++)
        check_return(&callers[i], FAK_C_OK);
    for (int i = 0; i < 3; i++)
        CHECK(fak_channel_leave(&ends[i]) == FAK_C_OK);
}

/* ---- Ends ---- */

/* A moved end sleeps at its own number, and is woken there. */
static void a_moved_end_is_woken(void) {
    lot self;
    fak_channel_waiting waiting;
    fak_channel_end ends[3] = {0}, other = {0};
    fak_channel_item item = fak_channel_of_word(1);
    caller receiver;
    make_lot(&self, 3);
    open_in(&self, &waiting, ends, 3, CELLS);
    CHECK(fak_channel_move(&ends[2], &other) == FAK_C_OK && other.number == 2);
    start(&receiver, (caller){.end = &other, .deadline = FAK_CHANNEL_NEVER});
    wait_until_parked(&self, 2, 1);
    CHECK(fak_channel_send(&ends[0], &item) == FAK_C_OK);
    check_return(&receiver, FAK_C_OK);
    CHECK(fak_channel_leave(&other) == FAK_C_OK && fak_channel_leave(&ends[0]) == FAK_C_OK && fak_channel_leave(&ends[1]) == FAK_C_OK);
    free_lot(&self);
}

/* No end is opened over one that is in use, wherever it is. */
static void ends_in_use_are_not_opened(void) {
    for (int used = 0; used < 3; used++) {
        fak_channel_end ends[3] = {0}, other = {0};
        CHECK(fak_channel_open_ends(&other, 1, 1, STINT) == FAK_C_OK && fak_channel_move(&other, &ends[used]) == FAK_C_OK);
        CHECK(fak_channel_open_ends(ends, 3, 1, STINT) == FAK_C_WRONG_STATE);
        for (int i = 0; i < 3; i++)
            CHECK((ends[i].seat.at != NULL) == (i == used));
        CHECK(fak_channel_leave(&ends[used]) == FAK_C_OK);
    }
}

/* ---- Signals and cancellation ---- */

static atomic_int signals, returns;

static void count_signal(int number) {
    (void)number;
    atomic_fetch_add(&signals, 1);
}

static void *receive_once(void *end) {
    fak_channel_item item = {{0}};
    CHECK(fak_channel_receive(end, &item) == FAK_C_OK && item.word[0] == 1);
    atomic_fetch_add(&returns, 1);
    pthread_testcancel();
    return NULL;
}

/* A thread sleeps. Signals end neither its sleep nor its call. If it is cancelled, the call ends first. */
static void a_sleep_goes_on(bool is_cancelled) {
    fak_channel_end ends[2] = {0};
    fak_channel_item item = fak_channel_of_word(1);
    struct sigaction action = {.sa_handler = count_signal};
    pthread_t thread;
    void *result = NULL;
    CHECK(sigemptyset(&action.sa_mask) == 0 && sigaction(SIGUSR1, &action, NULL) == 0);
    CHECK(fak_channel_open_ends(ends, 2, CELLS, STINT) == FAK_C_OK);
    atomic_store(&returns, 0);
    atomic_store(&signals, 0);
    CHECK(pthread_create(&thread, NULL, receive_once, &ends[1]) == 0);
    for (int i = 0; i < 3; i++) {
        rest_a_while();
        CHECK((is_cancelled ? pthread_cancel(thread) : pthread_kill(thread, SIGUSR1)) == 0);
    }
    rest_a_while();
    CHECK(atomic_load(&returns) == 0 && fak_channel_send(&ends[0], &item) == FAK_C_OK);
    CHECK(pthread_join(thread, &result) == 0 && atomic_load(&returns) == 1);
    CHECK((result == PTHREAD_CANCELED) == is_cancelled && (atomic_load(&signals) != 0) == !is_cancelled);
    for (int i = 0; i < 2; i++)
        CHECK(fak_channel_leave(&ends[i]) == FAK_C_OK);
}

static fak_channel_end *end_of_handler;

/* Sends by steps, and wakes by the functions of the end's waiting. The call that it interrupts sleeps, so it need not wait for a step. */
static void send_in_handler(int number) {
    fak_channel_end *end = end_of_handler;
    fak_channel_item item = fak_channel_of_word(1);
    uint64_t woken = 0;
    int32_t code;
    (void)number;
    CHECK(fak_channel_begin_send(&end->seat, &item) == FAK_C_OK);
    for (int steps = 0; (code = fak_channel_step(&end->seat, &item, &woken)) != FAK_C_OK; steps++) {
        CHECK((code == FAK_C_WAKES || code == FAK_C_NOT_YET) && steps < 100);
        if (code == FAK_C_WAKES)
            end->waiting->unpark(end->waiting->context, woken);
    }
}

/* A handler interrupts a thread that sleeps, and sends what this thread waits for. */
static void a_handler_sends(void) {
    fak_channel_end ends[2] = {0};
    struct sigaction action = {.sa_handler = send_in_handler};
    caller receiver;
    CHECK(fak_channel_open_ends(ends, 2, CELLS, STINT) == FAK_C_OK);
    end_of_handler = &ends[0];
    CHECK(sigemptyset(&action.sa_mask) == 0 && sigaction(SIGUSR1, &action, NULL) == 0);
    start(&receiver, (caller){.end = &ends[1], .deadline = fak_channel_deadline(UINT64_C(60000000000))});
    rest_a_while();
    CHECK(pthread_kill(receiver.thread, SIGUSR1) == 0);
    check_return(&receiver, FAK_C_OK);
    for (int i = 0; i < 2; i++)
        CHECK(fak_channel_leave(&ends[i]) == FAK_C_OK);
}

void each_wait_ends(void) {
    for (int sends = 0; sends < 2; sends++) {
        many_callers_sleep(sends);
        two_loans_come_back_at_once(sends);
        a_wait_for_an_end_has_a_deadline(sends);
        moved_ends_are_shared(sends);
        a_lost_race_keeps_the_deadline(sends, false);
        a_lost_race_keeps_the_deadline(sends, true);
    }
    a_loan_may_last();
    tries_pass_over_worn_ends();
    timed_sleeps_last();
    a_moved_end_is_woken();
    ends_in_use_are_not_opened();
    a_sleep_goes_on(false);
    a_handler_sends();
}

void a_cancelled_call_ends_first(void) {
    a_sleep_goes_on(true);
}

/* ---- Turns ---- */

/* The present round and the last one, and how many sends are done. */
static atomic_ullong turn, last_turn, done;
/* The lending whose borrowers stay for some time, and how many of them are in. */
static fak_channel_lending *_Atomic watched;
static atomic_int inside;

int32_t __real_fak_channel_lending_borrow(fak_channel_lending *lending, bool may_wait, uint64_t *number);
int32_t __wrap_fak_channel_lending_borrow(fak_channel_lending *lending, bool may_wait, uint64_t *number);

/* The caller holds the lock of the lending. It stays so long that another borrower comes, which must not get in. */
int32_t __wrap_fak_channel_lending_borrow(fak_channel_lending *lending, bool may_wait, uint64_t *number) {
    int32_t code;
    if (lending != atomic_load(&watched))
        return __real_fak_channel_lending_borrow(lending, may_wait, number);
    CHECK(atomic_fetch_add(&inside, 1) == 0);
    for (int yields = 0; yields < 100; yields++)
        sched_yield();
    code = __real_fak_channel_lending_borrow(lending, may_wait, number);
    atomic_fetch_sub(&inside, 1);
    return code;
}

/* Sends once in each round, as soon as it begins. */
static void *send_each_turn(void *shared) {
    for (uint64_t round = 1;; round++) {
        for (int looks = 0; atomic_load(&turn) < round; looks++)
            if (looks > 10000)
                sched_yield();
        if (round > atomic_load(&last_turn))
            return NULL;
        send_one(shared);
        atomic_fetch_add(&done, 1);
    }
}

/* Borrows the first of these ends, all but the last, as if other threads had them; or gives them back. */
static void lend_others(fak_channel_lender *lender, bool borrows) {
    uint64_t number = 0;
    bool wakes = false;
    for (uint64_t i = 0; i + 1 < lender->lending.count; i++)
        CHECK((borrows ? fak_channel_lending_borrow(&lender->lending, false, &number)
                       : fak_channel_lending_give_back(&lender->lending, i, &wakes)) == FAK_C_OK && !wakes);
}

/* Two callers share the last end of these. On a busy machine, where each yield takes long, there are fewer rounds: the time is bounded. */
static void take_turns(size_t senders, uint64_t rounds) {
    static fak_channel_end ends[FAK_CHANNEL_SHARED_ENDS(65, 1)];
    fak_channel_shared shared = {0};
    uint64_t enough = fak_channel_deadline(UINT64_C(10000000000)), round = 0;
    pthread_t turners[2];
    CHECK(fak_channel_shared_open(&shared, ends, senders, 1, CELLS, LONG_STINT) == FAK_C_OK);
    lend_others(&shared.senders, true);
    atomic_store(&watched, &shared.senders.lending);
    atomic_store(&turn, 0);
    atomic_store(&last_turn, UINT64_MAX);
    atomic_store(&done, 0);
    for (int i = 0; i < 2; i++)
        CHECK(pthread_create(&turners[i], NULL, send_each_turn, &shared) == 0);
    while (round < rounds && fak_channel_deadline(0) < enough) {
        uint64_t late = fak_channel_deadline(UINT64_C(30000000000));
        atomic_store(&turn, ++round);
        for (int looks = 0; atomic_load(&done) < 2 * round; looks++)
            if (looks > 10000)
                CHECK(sched_yield() == 0 && fak_channel_deadline(0) < late);
        for (int i = 0; i < 2; i++)
            end_one(&shared, true);
    }
    atomic_store(&last_turn, round);
    atomic_store(&turn, UINT64_MAX);
    for (int i = 0; i < 2; i++)
        CHECK(pthread_join(turners[i], NULL) == 0);
    atomic_store(&watched, NULL);
    lend_others(&shared.senders, false);
    CHECK(fak_channel_shared_leave(&shared) == FAK_C_OK);
}

void callers_take_turns(uint64_t rounds) {
    take_turns(1, rounds);
    take_turns(65, rounds);
}
