/* Deadlines, worn stints, loans and functions of the caller's own, of ends and of a shared channel, on one thread; and the allocations of
 * an opening. The files of rows/ have each code. The linker's --wrap sends each allocation here. */
#include "channel_tests.h"
#include "failing_heap.h"

#include <string.h>

enum { STINT = 60 };

static const fak_channel_item seven = {{7, 8, 9, 10}};

static bool are_equal(const fak_channel_item *one, const fak_channel_item *other) {
    return memcmp(one, other, sizeof *one) == 0;
}

/* ---- Ends ---- */

static void leave_ends(fak_channel_end *ends, size_t n) {
    for (size_t i = 0; i < n; i++)
        CHECK(fak_channel_leave(&ends[i]) == FAK_C_OK && ends[i].seat.at == NULL && fak_channel_leave(&ends[i]) == FAK_C_NO_SEAT);
}

/* A timed call gives up once its deadline has passed, and not before. */
static void deadlines_pass(void) {
    fak_channel_end ends[1] = {0};
    fak_channel_item item = {{1}};
    uint64_t before = fak_channel_deadline(0);
    CHECK(fak_channel_open_ends(ends, 1, 1, STINT) == FAK_C_OK && fak_channel_deadline(UINT64_MAX) == FAK_CHANNEL_NEVER);
    CHECK(fak_channel_receive_until(ends, &item, fak_channel_deadline(A_LONG_WHILE)) == FAK_C_GAVE_UP && item.word[0] == 1);
    CHECK(fak_channel_deadline(0) - before >= A_LONG_WHILE && fak_channel_send(ends, &seven) == FAK_C_OK);
    before = fak_channel_deadline(0);
    CHECK(fak_channel_send_until(ends, &seven, fak_channel_deadline(A_LONG_WHILE)) == FAK_C_GAVE_UP);
    CHECK(fak_channel_deadline(0) - before >= A_LONG_WHILE);
    leave_ends(ends, 1);
}

/* An end whose stint is used up. */
static void worn_ends_are_refused(void) {
    fak_channel_end ends[2] = {0};
    int sent = 0;
    CHECK(fak_channel_open_ends(ends, 2, 9, 5) == FAK_C_OK);
    while (fak_channel_try_send(&ends[0], &seven) == FAK_C_OK)
        sent++;
    CHECK(sent == 5 && fak_channel_send(&ends[0], &seven) == FAK_C_WORN);
    CHECK(fak_channel_send_until(&ends[0], &seven, 0) == FAK_C_WORN);
    leave_ends(ends, 2);
}

static void pointers_pass(void) {
    fak_channel_end ends[1] = {0};
    fak_channel_item item = fak_channel_of_pointer(ends), got = {{0}};
    CHECK(fak_channel_open_ends(ends, 1, 1, 9) == FAK_C_OK && fak_channel_send(ends, &item) == FAK_C_OK);
    CHECK(fak_channel_receive(ends, &got) == FAK_C_OK && fak_channel_pointer_of(&got) == (void *)ends && got.word[3] == 0);
    leave_ends(ends, 1);
}

/* ---- The caller's own functions ---- */

static uint64_t parked_at, parked_until, woken, parks, wakes;

static bool never_parks(void *context, uint64_t number, uint64_t deadline) {
    CHECK(context == &parks);
    parked_at = number;
    parked_until = deadline;
    return ++parks % 3 != 0; /* two of three times for no reason */
}

static void notes(void *context, uint64_t number) {
    CHECK(context == &parks);
    woken = number;
    wakes++;
}

/* Begins a call by steps, which sleeps. */
static void sleep_by_steps(fak_c_seat *seat, const fak_channel_item *sent) {
    fak_channel_item item = {{0}};
    uint64_t number = 99;
    CHECK((sent != NULL ? fak_channel_begin_send(seat, sent) : fak_channel_begin_receive(seat)) == FAK_C_OK);
    while (fak_channel_step(seat, &item, &number) != FAK_C_SLEEPS)
        CHECK(number == 99);
}

/* Ends it, since it was woken. */
static void wake_by_steps(fak_c_seat *seat, int32_t code) {
    fak_channel_item item = {{0}};
    uint64_t number = 99;
    CHECK(woken == 0);
    woken = 99;
    while (fak_channel_step(seat, &item, &number) != code)
        CHECK(number == 99);
}

static void own_functions_are_called(void) {
    fak_channel_waiting waiting = {never_parks, notes, NULL, &parks, 0, 3, 0};
    fak_c_seat seats[3] = {0};
    fak_channel_end ends[3] = {0};
    fak_channel_item item = {{0}};
    CHECK(fak_channel_end_of(&seats[0], &waiting, &ends[0]) == FAK_C_NO_SEAT && fak_channel_open(seats, 3, 1, STINT) == FAK_C_OK);
    sleep_by_steps(&seats[2], NULL);
    CHECK(fak_channel_end_of(&seats[2], &waiting, &ends[2]) == FAK_C_WRONG_STATE && waiting.ends == 0);
    CHECK(fak_channel_give_up(&seats[2], &item) == FAK_C_GAVE_UP && fak_channel_end_of(&seats[2], &waiting, &ends[2]) == FAK_C_OK);
    CHECK(fak_channel_end_of(&seats[1], &waiting, &ends[2]) == FAK_C_WRONG_STATE);
    CHECK(fak_channel_end_of(&seats[1], &waiting, &ends[0]) == FAK_C_OK && ends[0].number == 1 && waiting.ends == 2);
    CHECK(fak_channel_receive_until(&ends[0], &item, 77) == FAK_C_GAVE_UP && parks == 3 && parked_at == 1 && parked_until == 77);
    CHECK(fak_channel_receive_until(&ends[2], &item, 0) == FAK_C_GAVE_UP && parks == 3);
    woken = 99;
    sleep_by_steps(&seats[0], NULL);
    CHECK(fak_channel_send(&ends[2], &seven) == FAK_C_OK && wakes == 1);
    wake_by_steps(&seats[0], FAK_C_OK);
    CHECK(fak_channel_send(&ends[2], &seven) == FAK_C_OK);
    sleep_by_steps(&seats[0], &seven);
    CHECK(fak_channel_receive(&ends[2], &item) == FAK_C_OK && wakes == 2);
    wake_by_steps(&seats[0], FAK_C_OK);
    CHECK(fak_channel_leave(&ends[0]) == FAK_C_OK && fak_channel_leave(&ends[2]) == FAK_C_OK && waiting.ends == 0);
    CHECK(fak_c_leave(&seats[0]) == FAK_C_OK);
}

/* A close wakes a receiver that sleeps, or a sender. */
static void a_close_wakes_each_side(void) {
    for (int sends = 0; sends < 2; sends++) {
        fak_channel_waiting waiting = {never_parks, notes, NULL, &parks, 0, 2, 0};
        fak_c_seat seats[2] = {0};
        fak_channel_end end = {0};
        CHECK(fak_channel_open(seats, 2, 1, STINT) == FAK_C_OK && fak_channel_end_of(&seats[1], &waiting, &end) == FAK_C_OK);
        CHECK(sends == 0 || fak_channel_send(&end, &seven) == FAK_C_OK);
        sleep_by_steps(&seats[0], sends == 0 ? NULL : &seven);
        CHECK(fak_channel_close(&end) == FAK_C_OK);
        wake_by_steps(&seats[0], FAK_C_CLOSED);
        CHECK(fak_channel_leave(&end) == FAK_C_OK && fak_c_leave(&seats[0]) == FAK_C_OK);
    }
}

void ends_wait(void) {
    deadlines_pass();
    worn_ends_are_refused();
    pointers_pass();
    own_functions_are_called();
    a_close_wakes_each_side();
}

/* ---- A shared channel ---- */

enum { SENDERS = 2, RECEIVERS = 1, SHARED = FAK_CHANNEL_SHARED_ENDS(SENDERS, RECEIVERS) };

/* While an end has an open call by steps, no end leaves. All ends leave at once. */
static void all_ends_leave_or_none(void) {
    for (int open = 0; open < SHARED; open++) {
        fak_channel_end ends[SHARED] = {0};
        fak_channel_shared shared = {0};
        fak_channel_item item = seven;
        uint64_t number = 0;
        CHECK(fak_channel_shared_open(&shared, ends, SENDERS, RECEIVERS, 2, STINT) == FAK_C_OK);
        CHECK(fak_channel_begin_send(&ends[open].seat, &item) == FAK_C_OK);
        for (int twice = 0; twice < 2; twice++) {
            CHECK(fak_channel_shared_leave(&shared) == FAK_C_WRONG_STATE);
            for (int i = 0; i < SHARED; i++)
                CHECK(ends[i].seat.at != NULL && ends[i].waiting != NULL);
        }
        while (fak_channel_step(&ends[open].seat, &item, &number) != FAK_C_OK)
            continue;
        CHECK(fak_channel_shared_receive(&shared, &item) == FAK_C_OK && are_equal(&item, &seven));
        CHECK(fak_channel_shared_leave(&shared) == FAK_C_OK && fak_channel_shared_leave(&shared) == FAK_C_NO_SEAT);
    }
}

/* Once all ends have left, calls are refused, also while others are being refused. */
static void a_shared_channel_that_was_left_refuses(void) {
    fak_channel_end ends[SHARED] = {0};
    fak_channel_shared shared = {0};
    fak_channel_item item = seven;
    uint64_t items = 0;
    CHECK(fak_channel_shared_open(&shared, ends, SENDERS, RECEIVERS, 2, STINT) == FAK_C_OK);
    CHECK(fak_channel_shared_leave(&shared) == FAK_C_OK);
    shared.closes = shared.looks = shared.senders.lock = shared.receivers.lock = 1;
    CHECK(fak_channel_shared_close(&shared) == FAK_C_NO_SEAT && fak_channel_shared_len(&shared, &items) == FAK_C_NO_SEAT);
    CHECK(fak_channel_shared_try_send(&shared, &item) == FAK_C_NO_SEAT && fak_channel_shared_receive(&shared, &item) == FAK_C_NO_SEAT);
}

/* Borrows the only end of a lender, or the first of several, as if a thread had it. */
static void borrow_first(fak_channel_lender *lender) {
    uint64_t number = 99;
    CHECK(fak_channel_lending_borrow(&lender->lending, false, &number) == FAK_C_OK && number == 0);
}

/* Gives it back, and says whether a caller is to be woken. */
static bool give_back_first(fak_channel_lender *lender) {
    bool wakes = false;
    CHECK(fak_channel_lending_give_back(&lender->lending, 0, &wakes) == FAK_C_OK);
    return wakes;
}

/* Ends that are lent are not lent twice, and not given up. */
static void ends_are_lent_once(void) {
    fak_channel_end ends[SHARED] = {0};
    fak_channel_shared shared = {0};
    fak_channel_item item = {{0}};
    CHECK(fak_channel_open_ends(ends, SHARED, 2, STINT) == FAK_C_OK);
    CHECK(fak_channel_shared_over(&shared, ends, SENDERS, RECEIVERS) == FAK_C_OK);
    borrow_first(&shared.receivers);
    CHECK(fak_channel_shared_try_receive(&shared, &item) == FAK_C_BUSY && fak_channel_shared_try_send(&shared, &seven) == FAK_C_OK);
    CHECK(fak_channel_shared_receive_until(&shared, &item, fak_channel_deadline(A_WHILE)) == FAK_C_GAVE_UP);
    CHECK(fak_channel_shared_leave(&shared) == FAK_C_WRONG_STATE && ends[0].seat.at != NULL && !give_back_first(&shared.receivers));
    CHECK(fak_channel_shared_receive(&shared, &item) == FAK_C_OK && fak_channel_shared_leave(&shared) == FAK_C_OK);
}

static fak_channel_lender *parked_lender;

/* While a caller waits for the only end of receivers, it comes back, after a wake-up for nothing. While a receive sleeps, nobody else has
 * its end. */
static bool gives_back(void *context, uint64_t number, uint64_t deadline) {
    CHECK(context == &parks && deadline != 0 && parked_lender->lock == 0 && parked_lender->lending.idle[0] == 0
        && parked_lender->lending.waiting == (number == 1));
    parked_at = number;
    if (number == 1 && ++parks % 2 == 0)
        CHECK(give_back_first(parked_lender));
    return number == 1;
}

/* A caller that waited no longer does, and has the first end for a moment. */
static void stop_waiting(fak_channel_lender *lender) {
    uint64_t number = 99;
    bool wakes = true;
    CHECK(fak_channel_lending_look_again(&lender->lending, true, &number, &wakes) == FAK_C_OK && number == 0 && !wakes);
    CHECK(!give_back_first(lender));
}

/* A caller that waits for an end parks at the first two numbers, and is woken when an end comes back. */
static void lenders_call_own_functions(void) {
    fak_channel_waiting waiting = {gives_back, notes, NULL, &parks, 0, SHARED, 0};
    fak_c_seat seats[SHARED] = {0};
    fak_channel_end ends[SHARED] = {0};
    fak_channel_shared shared = {0};
    fak_channel_item item = {{0}};
    CHECK(fak_channel_open(seats, SHARED, 2, STINT) == FAK_C_OK);
    for (int i = 0; i < SHARED; i++)
        CHECK(fak_channel_end_of(&seats[i], &waiting, &ends[i]) == FAK_C_OK);
    CHECK(fak_channel_shared_over(&shared, ends, SENDERS, RECEIVERS) == FAK_C_OK);
    parked_lender = &shared.receivers;
    wakes = parks = 0;
    CHECK(fak_channel_shared_receive_until(&shared, &item, 5) == FAK_C_GAVE_UP && parked_at == SHARED - 1);
    CHECK(fak_channel_shared_send(&shared, &seven) == FAK_C_OK && wakes == 0);
    borrow_first(&shared.receivers);
    CHECK(fak_channel_shared_receive(&shared, &item) == FAK_C_OK && parked_at == 1 && parks == 2 && wakes == 0);
    shared.receivers.lending.waiting = 1; /* as if another thread waited */
    CHECK(fak_channel_shared_try_receive(&shared, &item) == FAK_C_EMPTY && wakes == 1 && woken == 1);
    CHECK(fak_channel_shared_leave(&shared) == FAK_C_WRONG_STATE);
    stop_waiting(&shared.receivers);
    shared.senders.lending.waiting = 1;
    CHECK(fak_channel_shared_try_send(&shared, &seven) == FAK_C_OK && wakes == 2 && woken == 0);
    stop_waiting(&shared.senders);
    CHECK(fak_channel_shared_leave(&shared) == FAK_C_OK);
}

/* An end whose stint is used up is not lent again. */
static void worn_ends_are_put_aside(void) {
    enum { FEW = 4 };
    fak_channel_end ends[SHARED] = {0};
    fak_channel_shared shared = {0};
    fak_channel_item item = {{0}};
    int sent = 0, received = 0;
    CHECK(fak_channel_shared_open(&shared, ends, SENDERS, RECEIVERS, 99, FEW) == FAK_C_OK);
    while (fak_channel_shared_send(&shared, &seven) == FAK_C_OK)
        sent++;
    while (fak_channel_shared_receive(&shared, &item) == FAK_C_OK)
        received++;
    CHECK(sent >= FEW && sent <= SENDERS * FEW && received >= 1 && received <= FEW && sent > received);
    CHECK(fak_channel_shared_try_send(&shared, &seven) == FAK_C_WORN && fak_channel_shared_receive(&shared, &item) == FAK_C_WORN);
    CHECK(fak_channel_shared_leave(&shared) == FAK_C_OK);
}

void shared_ends_are_lent(void) {
    all_ends_leave_or_none();
    a_shared_channel_that_was_left_refuses();
    ends_are_lent_once();
    lenders_call_own_functions();
    worn_ends_are_put_aside();
}

/* ---- Memory ---- */

void each_channel_allocation_fails_in_turn(void) {
    fak_channel_end ends[SHARED] = {0};
    fak_channel_shared shared = {0};
    fak_channel_item item = {{0}};
    int32_t code;
    long before;
    failing = 0;
    do {
        made = 0;
        failing++;
        code = fak_channel_shared_open(&shared, ends, SENDERS, RECEIVERS, 3, STINT);
        CHECK(code == FAK_C_OK || (code == FAK_C_MEMORY && live == 0 && ends[0].seat.at == NULL && ends[SHARED - 1].seat.at == NULL));
    } while (code != FAK_C_OK);
    CHECK(failing > 3);
    failing = 0;
    before = made;
    CHECK(fak_channel_shared_send(&shared, &seven) == FAK_C_OK && fak_channel_shared_receive(&shared, &item) == FAK_C_OK);
    CHECK(fak_channel_shared_receive_until(&shared, &item, 1) == FAK_C_GAVE_UP && fak_channel_shared_close(&shared) == FAK_C_OK);
    CHECK(made == before && fak_channel_shared_leave(&shared) == FAK_C_OK && live == 0);
    CHECK(aligned_bytes == 64 * SHARED + 64);
}
