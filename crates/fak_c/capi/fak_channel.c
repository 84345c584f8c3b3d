/* The channel for threads (fak_channel.h), over its calls by steps: the ends, the shared channel, and how threads sleep on Linux. In a
 * freestanding build only the last part is missing. */
#ifndef _GNU_SOURCE
#define _GNU_SOURCE
#endif
#include "fak_channel.h"

/* The deadline of a call that must not sleep. */
#define NO_TIME 0

/* ---- Ends ---- */

/* Waits a moment for a step of another thread. */
static void pause_once(const fak_channel_waiting *waiting, uint64_t rounds) {
    if (waiting->pause != NULL)
        waiting->pause(waiting->context, rounds);
}

/* Takes the steps of an end's open call until it is done. It sleeps until the deadline at most. */
static int32_t go_on(fak_channel_end *end, fak_channel_item *item, uint64_t deadline) {
    const fak_channel_waiting *waiting = end->waiting;
    uint64_t rounds = 0, number = 0;
    for (;;) {
        int32_t code = fak_channel_step(&end->seat, item, &number);
        if (code == FAK_C_NOT_YET) {
            pause_once(waiting, rounds++);
            continue;
        }
        rounds = 0;
        if (code == FAK_C_WAKES) {
            waiting->unpark(waiting->context, number);
        } else if (code != FAK_C_SLEEPS) {
            return code;
        } else if (deadline == NO_TIME || !waiting->park(waiting->context, end->number, deadline)) {
            code = fak_channel_give_up(&end->seat, item);
            if (code != FAK_C_NOT_YET)
                return code;
        }
    }
}

/* Tells ThreadSanitizer that this call writes to the end, so that it reports two calls at once, of which it sees nothing else. */
static void mark_call(fak_channel_end *end) {
#ifdef FAK_C_THREAD_SANITIZER
    end->after[0]++;
#else
    (void)end;
#endif
}

/* Goes on with a send that was begun with this code. */
static int32_t end_send(fak_channel_end *end, fak_channel_item *item, uint64_t deadline, int32_t begun) {
    if (begun == FAK_C_OK) {
        /* It must come before the steps: a receiver may take the item at one of them. */
        FAK_C_GIVES(end->waiting);
        begun = go_on(end, item, deadline);
    }
    if (begun == FAK_C_CLOSED)
        FAK_C_GETS(end->waiting);
    return begun;
}

/* The same for a receive. */
static int32_t end_receive(fak_channel_end *end, fak_channel_item *item, uint64_t deadline, int32_t begun) {
    fak_channel_item received = {{0, 0, 0, 0}};
    if (begun == FAK_C_OK)
        begun = go_on(end, &received, deadline);
    if (begun == FAK_C_OK)
        *item = received;
    if (begun == FAK_C_OK || begun == FAK_C_CLOSED)
        FAK_C_GETS(end->waiting);
    return begun;
}

int32_t fak_channel_send_until(fak_channel_end *end, const fak_channel_item *item, uint64_t deadline) {
    fak_channel_item sent = *item;
    mark_call(end);
    return end_send(end, &sent, deadline, fak_channel_begin_send(&end->seat, &sent));
}

int32_t fak_channel_receive_until(fak_channel_end *end, fak_channel_item *item, uint64_t deadline) {
    mark_call(end);
    return end_receive(end, item, deadline, fak_channel_begin_receive(&end->seat));
}

int32_t fak_channel_send(fak_channel_end *end, const fak_channel_item *item) {
    return fak_channel_send_until(end, item, FAK_CHANNEL_NEVER);
}

int32_t fak_channel_receive(fak_channel_end *end, fak_channel_item *item) {
    return fak_channel_receive_until(end, item, FAK_CHANNEL_NEVER);
}

int32_t fak_channel_try_send(fak_channel_end *end, const fak_channel_item *item) {
    fak_channel_item sent = *item;
    int32_t code;
    mark_call(end);
    code = end_send(end, &sent, NO_TIME, fak_channel_begin_try_send(&end->seat, &sent));
    return code == FAK_C_GAVE_UP ? FAK_C_FULL : code;
}

int32_t fak_channel_try_receive(fak_channel_end *end, fak_channel_item *item) {
    int32_t code;
    mark_call(end);
    code = end_receive(end, item, NO_TIME, fak_channel_begin_try_receive(&end->seat));
    return code == FAK_C_GAVE_UP ? FAK_C_EMPTY : code;
}

int32_t fak_channel_close(fak_channel_end *end) {
    fak_channel_item unused = {{0, 0, 0, 0}};
    int32_t code;
    mark_call(end);
    code = fak_channel_begin_close(&end->seat);
    if (code != FAK_C_OK)
        return code;
    FAK_C_GIVES(end->waiting);
    code = go_on(end, &unused, FAK_CHANNEL_NEVER);
    if (code == FAK_C_CLOSED)
        FAK_C_GETS(end->waiting);
    return code;
}

/* The code of a call that needs an idle end, and the end's number. */
static int32_t number_of_idle(fak_c_seat *seat, uint64_t *number) {
    uint32_t state = FAK_CHANNEL_IDLE;
    uint64_t left = 0;
    int32_t code = fak_channel_state(seat, number, &state, &left);
    return code == FAK_C_OK && state != FAK_CHANNEL_IDLE ? FAK_C_WRONG_STATE : code;
}

int32_t fak_channel_end_of(fak_c_seat *seat, fak_channel_waiting *waiting, fak_channel_end *end) {
    uint64_t number = 0;
    int32_t code = number_of_idle(seat, &number);
    if (code == FAK_C_OK)
        code = fak_c_move(seat, &end->seat);
    if (code != FAK_C_OK)
        return code;
    end->waiting = waiting;
    end->number = number;
    /* Only counted here: the end is handed to its thread in order, so the leave that subtracts comes after. */
    __atomic_fetch_add(&waiting->ends, 1, __ATOMIC_RELAXED);
    return FAK_C_OK;
}

/* Makes the end all zeros, whose seat has gone. */
static void empty(fak_channel_end *end) {
    end->waiting = NULL;
    end->number = 0;
    end->after[0] = 0;
}

int32_t fak_channel_move(fak_channel_end *end, fak_channel_end *to) {
    int32_t code;
    mark_call(end);
    mark_call(to);
    code = fak_c_move(&end->seat, &to->seat);
    if (code != FAK_C_OK)
        return code;
    to->waiting = end->waiting;
    to->number = end->number;
    empty(end);
    return FAK_C_OK;
}

/* Frees what fak_channel_open_ends has made for a channel. */
static void free_waiting(fak_channel_waiting *waiting);

/* The code of a leave of this end, with `drop` or without. */
static int32_t may_leave(fak_channel_end *end, bool drops) {
    uint64_t number = 0;
    int32_t code = number_of_idle(&end->seat, &number);
    return code == FAK_C_OK && drops && end->waiting->seats == 0 ? FAK_C_BAD_LIMIT : code;
}

int32_t fak_channel_leave_with(fak_channel_end *end, void (*drop)(void *context, const fak_channel_item *item), void *context) {
    fak_channel_waiting *waiting = end->waiting;
    fak_channel_item item = {{0, 0, 0, 0}};
    uint64_t seats;
    bool is_last;
    int32_t code;
    mark_call(end);
    code = may_leave(end, drop != NULL);
    if (code != FAK_C_OK)
        return code;
    /* Both must come before the next step: the last end may free the waiting after that. */
    seats = waiting->seats;
    __atomic_fetch_sub(&waiting->ends, 1, __ATOMIC_RELAXED);
    /* A seat that is no end yet, or never becomes one, is not counted: its caller may still receive. This must come before the seat is
     * given up: the last end drops the items while it still has its seat. Acquire and release, since the last end frees what the others
     * have used. */
    is_last = __atomic_add_fetch(&waiting->gone, 1, __ATOMIC_ACQ_REL) == seats;
    while (is_last && drop != NULL && fak_channel_try_receive(end, &item) == FAK_C_OK)
        drop(context, &item);
    code = fak_c_leave(&end->seat);
    empty(end);
    if (is_last)
        free_waiting(waiting);
    return code;
}

int32_t fak_channel_leave(fak_channel_end *end) {
    return fak_channel_leave_with(end, NULL, NULL);
}

/* ---- Locks ---- */

/* Takes a lock for a short time. The exchange must come before what the lock guards, and the store of give_lock must follow that: one
 * caller at a time has the lock, and finds what the last one wrote. */
static void take_lock(uint64_t *lock, const fak_channel_waiting *waiting) {
    for (uint64_t rounds = 0; __atomic_exchange_n(lock, 1, __ATOMIC_ACQUIRE) != 0; rounds++)
        pause_once(waiting, rounds);
}

static void give_lock(uint64_t *lock) {
    __atomic_store_n(lock, 0, __ATOMIC_RELEASE);
}

/* ---- Lenders ---- */

/* The end at which callers park while they wait for an end of this lender. It never sleeps in the channel itself. */
static const fak_channel_end *place_of(const fak_channel_lender *lender, const fak_channel_shared *shared) {
    return &shared->ends[lender == &shared->senders ? 0 : 1];
}

/* Parks until an end may have come back, and looks again. It does not park under the lock: it is counted as waiting, so a wake-up that
 * comes before the park sets the token. */
static int32_t wait_for_end(const fak_channel_end *place, fak_channel_lender *lender, uint64_t deadline, uint64_t *number) {
    const fak_channel_waiting *waiting = place->waiting;
    bool is_in_time = waiting->park(waiting->context, place->number, deadline), wakes = false;
    int32_t code;
    take_lock(&lender->lock, waiting);
    code = fak_channel_lending_look_again(&lender->lending, is_in_time, number, &wakes);
    give_lock(&lender->lock);
    if (wakes)
        waiting->unpark(waiting->context, place->number);
    return code;
}

/* Lends an end of a shared channel. */
static int32_t lend(fak_channel_shared *shared, fak_channel_lender *lender, uint64_t deadline, fak_channel_end **end) {
    const fak_channel_end *place;
    uint64_t number = 0;
    int32_t code;
    if (lender->ends == NULL)
        return FAK_C_NO_SEAT;
    place = place_of(lender, shared);
    take_lock(&lender->lock, place->waiting);
    code = fak_channel_lending_borrow(&lender->lending, deadline != NO_TIME, &number);
    give_lock(&lender->lock);
    while (code == FAK_C_SLEEPS)
        code = wait_for_end(place, lender, deadline, &number);
    if (code == FAK_C_OK)
        *end = &lender->ends[number];
    return code;
}

/* Ends the loan of an end. It must follow the call: another caller may have the end from here on. An end that has used up its stint is not
 * lent again. */
static void end_loan(fak_channel_shared *shared, fak_channel_lender *lender, const fak_channel_end *end, bool is_worn) {
    const fak_channel_end *place = place_of(lender, shared);
    uint64_t number = (uint64_t)(end - lender->ends);
    bool wakes = false;
    take_lock(&lender->lock, place->waiting);
    if (is_worn)
        fak_channel_lending_retire(&lender->lending, number, &wakes);
    else
        fak_channel_lending_give_back(&lender->lending, number, &wakes);
    give_lock(&lender->lock);
    if (wakes)
        place->waiting->unpark(place->waiting->context, place->number);
}

/* ---- The shared channel ---- */

/* Lends ends for a send, until one is not worn. */
static int32_t send_by_lent(fak_channel_shared *shared, const fak_channel_item *item, uint64_t deadline, bool tries) {
    fak_channel_lender *lender = &shared->senders;
    for (;;) {
        fak_channel_end *end = NULL;
        int32_t code = lend(shared, lender, deadline, &end);
        if (code != FAK_C_OK)
            return code == FAK_C_GAVE_UP && tries ? FAK_C_BUSY : code;
        code = tries ? fak_channel_try_send(end, item) : fak_channel_send_until(end, item, deadline);
        end_loan(shared, lender, end, code == FAK_C_WORN);
        if (code != FAK_C_WORN)
            return code;
    }
}

/* Lends ends for a receive likewise. */
static int32_t receive_by_lent(fak_channel_shared *shared, fak_channel_item *item, uint64_t deadline, bool tries) {
    fak_channel_lender *lender = &shared->receivers;
    for (;;) {
        fak_channel_end *end = NULL;
        int32_t code = lend(shared, lender, deadline, &end);
        if (code != FAK_C_OK)
            return code == FAK_C_GAVE_UP && tries ? FAK_C_BUSY : code;
        code = tries ? fak_channel_try_receive(end, item) : fak_channel_receive_until(end, item, deadline);
        end_loan(shared, lender, end, code == FAK_C_WORN);
        if (code != FAK_C_WORN)
            return code;
    }
}

int32_t fak_channel_shared_send(fak_channel_shared *shared, const fak_channel_item *item) {
    return send_by_lent(shared, item, FAK_CHANNEL_NEVER, false);
}

int32_t fak_channel_shared_receive(fak_channel_shared *shared, fak_channel_item *item) {
    return receive_by_lent(shared, item, FAK_CHANNEL_NEVER, false);
}

int32_t fak_channel_shared_try_send(fak_channel_shared *shared, const fak_channel_item *item) {
    return send_by_lent(shared, item, NO_TIME, true);
}

int32_t fak_channel_shared_try_receive(fak_channel_shared *shared, fak_channel_item *item) {
    return receive_by_lent(shared, item, NO_TIME, true);
}

int32_t fak_channel_shared_send_until(fak_channel_shared *shared, const fak_channel_item *item, uint64_t deadline) {
    return send_by_lent(shared, item, deadline, false);
}

int32_t fak_channel_shared_receive_until(fak_channel_shared *shared, fak_channel_item *item, uint64_t deadline) {
    return receive_by_lent(shared, item, deadline, false);
}

/* Takes one of the first two ends for a call that never sleeps, or none if the shared channel was not opened. The end is in one call at a
 * time. */
static fak_channel_end *take_own(fak_channel_shared *shared, uint64_t *lock) {
    fak_channel_end *end;
    if (shared->ends == NULL)
        return NULL;
    end = &shared->ends[lock == &shared->closes ? 0 : 1];
    take_lock(lock, end->waiting);
    return end;
}

static int32_t give_own(uint64_t *lock, int32_t code) {
    give_lock(lock);
    return code;
}

int32_t fak_channel_shared_close(fak_channel_shared *shared) {
    fak_channel_end *end = take_own(shared, &shared->closes);
    return end != NULL ? give_own(&shared->closes, fak_channel_close(end)) : FAK_C_NO_SEAT;
}

int32_t fak_channel_shared_len(fak_channel_shared *shared, uint64_t *items) {
    fak_channel_end *end = take_own(shared, &shared->looks);
    return end != NULL ? give_own(&shared->looks, fak_channel_len(&end->seat, items)) : FAK_C_NO_SEAT;
}

int32_t fak_channel_shared_is_closed(fak_channel_shared *shared, bool *is_closed) {
    fak_channel_end *end = take_own(shared, &shared->looks);
    return end != NULL ? give_own(&shared->looks, fak_channel_is_closed(&end->seat, is_closed)) : FAK_C_NO_SEAT;
}

static int32_t make_lender(fak_channel_lender *lender, fak_channel_end *ends, size_t count) {
    lender->ends = ends;
    lender->lock = 0;
    return fak_channel_lending_open(&lender->lending, count);
}

static bool is_number_of_ends(size_t senders, size_t receivers) {
    return senders >= 1 && receivers >= 1 && senders < FAK_C_MOST_SEATS && receivers < FAK_C_MOST_SEATS
        && FAK_CHANNEL_SHARED_ENDS(senders, receivers) <= FAK_C_MOST_SEATS;
}

int32_t fak_channel_shared_over(fak_channel_shared *shared, fak_channel_end *ends, size_t senders, size_t receivers) {
    if (!is_number_of_ends(senders, receivers))
        return FAK_C_BAD_LIMIT;
    for (size_t i = 0; i < FAK_CHANNEL_SHARED_ENDS(senders, receivers); i++)
        if (ends[i].seat.at == NULL)
            return FAK_C_NO_SEAT;
    shared->ends = ends;
    shared->closes = 0;
    shared->looks = 0;
    make_lender(&shared->senders, ends + 2, senders);
    return make_lender(&shared->receivers, ends + 2 + senders, receivers);
}

/* Whether no end is lent, and no caller waits for one. */
static bool is_at_rest(fak_channel_lender *lender) {
    bool rests = false;
    take_lock(&lender->lock, lender->ends->waiting);
    fak_channel_lending_is_at_rest(&lender->lending, &rests);
    give_lock(&lender->lock);
    return rests;
}

/* The code of a leave of all n ends, each of which could refuse its own: all leave, or none. */
static int32_t may_all_leave(fak_channel_shared *shared, size_t n, bool drops) {
    int32_t code = FAK_C_OK;
    if (shared->ends == NULL)
        return FAK_C_NO_SEAT;
    if (!is_at_rest(&shared->senders) || !is_at_rest(&shared->receivers))
        return FAK_C_WRONG_STATE;
    for (size_t i = 0; i < n && code == FAK_C_OK; i++)
        code = may_leave(&shared->ends[i], drops);
    return code;
}

int32_t fak_channel_shared_leave_with(
    fak_channel_shared *shared, void (*drop)(void *context, const fak_channel_item *item), void *context) {
    size_t n = FAK_CHANNEL_SHARED_ENDS(shared->senders.lending.count, shared->receivers.lending.count);
    int32_t code = may_all_leave(shared, n, drop != NULL);
    /* The first two ends have called least, so one of them drops what is left. */
    for (size_t i = n; i-- > 0 && code == FAK_C_OK;)
        code = fak_channel_leave_with(&shared->ends[i], drop, context);
    /* Later calls find nothing that is shared. */
    if (code == FAK_C_OK)
        shared->ends = shared->senders.ends = shared->receivers.ends = NULL;
    return code;
}

int32_t fak_channel_shared_leave(fak_channel_shared *shared) {
    return fak_channel_shared_leave_with(shared, NULL, NULL);
}

/* ---- Sleeping on Linux ---- */

#if __STDC_HOSTED__ && defined(__linux__)

#include <errno.h>
#include <linux/futex.h>
#include <sched.h>
#include <stdlib.h>
#include <sys/syscall.h>
#include <time.h>
#include <unistd.h>

/* The token of an end: 1 if it is set; and how many threads are parked at it. It has a cache line of its own. */
struct token {
    uint32_t is_set;
    uint32_t parked;
    uint32_t unused[14];
};

/* What the ends of a channel share, on a cache line of its own, too. */
struct channel {
    fak_channel_waiting waiting;
    uint64_t unused;
    struct token tokens[];
};

static uint64_t now(void) {
    struct timespec time;
    clock_gettime(CLOCK_MONOTONIC, &time);
    return (uint64_t)time.tv_sec * 1000000000 + (uint64_t)time.tv_nsec;
}

uint64_t fak_channel_deadline(uint64_t nanoseconds) {
    uint64_t deadline = now() + nanoseconds;
    return deadline < nanoseconds ? FAK_CHANNEL_NEVER : deadline;
}

/* Sleeps while the token is not set: until it is woken, until the deadline or a signal, or until it wakes up without a reason. The kernel
 * looks at the token once more before it sleeps, so a token that was set since the caller's look is not missed. */
static void sleep_on(uint32_t *is_set, uint64_t deadline) {
    struct timespec time = {(time_t)(deadline / 1000000000), (long)(deadline % 1000000000)};
    struct timespec *until = deadline == FAK_CHANNEL_NEVER ? NULL : &time;
    long status = syscall(SYS_futex, is_set, FUTEX_WAIT_BITSET_PRIVATE, 0, until, NULL, FUTEX_BITSET_MATCH_ANY);
    if (status != 0 && errno != EAGAIN && errno != EINTR && errno != ETIMEDOUT)
        sched_yield();
}

/* Spins for less than a microsecond, and yields from the eighth time on. */
static void pause_or_yield(void *context, uint64_t rounds) {
    (void)context;
    if (rounds >= 7) {
        sched_yield();
        return;
    }
    for (int i = 0; i < 8; i++) {
#if defined(__x86_64__)
        __builtin_ia32_pause();
#else
        __atomic_signal_fence(__ATOMIC_SEQ_CST);
#endif
    }
}

/* How often a thread looks at its token before it sleeps: for some microseconds, in which most wake-ups come. */
#define POLLS 20

/* Takes the token, if it is set in this short time. What the waking thread wrote before is there. */
static bool poll_token(uint32_t *is_set) {
    for (uint64_t rounds = 0; rounds < POLLS; rounds++) {
        if (__atomic_load_n(is_set, __ATOMIC_SEQ_CST) != 0 && __atomic_exchange_n(is_set, 0, __ATOMIC_SEQ_CST) != 0)
            return true;
        pause_or_yield(NULL, rounds);
    }
    return false;
}

/* Takes the token once it is set. False if the deadline has passed. */
static bool sleep_for(uint32_t *is_set, uint64_t deadline) {
    for (;;) {
        /* It comes before the look at the clock, so that a token that was set in time counts after the deadline, too. */
        if (__atomic_exchange_n(is_set, 0, __ATOMIC_SEQ_CST) != 0)
            return true;
        if (deadline != FAK_CHANNEL_NEVER && now() >= deadline)
            return false;
        sleep_on(is_set, deadline);
    }
}

static bool park(void *context, uint64_t number, uint64_t deadline) {
    struct token *token = &((struct channel *)context)->tokens[number];
    bool is_taken;
    if ((deadline == FAK_CHANNEL_NEVER || now() < deadline) && poll_token(&token->is_set))
        return true;
    /* It must come before the next look at the token: a thread that sets the token after that look finds a parked thread, and wakes it. */
    __atomic_fetch_add(&token->parked, 1, __ATOMIC_SEQ_CST);
    is_taken = sleep_for(&token->is_set, deadline);
    __atomic_fetch_sub(&token->parked, 1, __ATOMIC_SEQ_CST);
    return is_taken;
}

static void unpark(void *context, uint64_t number) {
    struct token *token = &((struct channel *)context)->tokens[number];
    /* It must come before the wake-up, which would else find the token clear and the thread on its way to sleep, and before the look for
     * parked threads. A token that was set already has its wake-up. */
    if (__atomic_exchange_n(&token->is_set, 1, __ATOMIC_SEQ_CST) == 0 && __atomic_load_n(&token->parked, __ATOMIC_SEQ_CST) != 0)
        syscall(SYS_futex, &token->is_set, FUTEX_WAKE_PRIVATE, 1, NULL, NULL, 0);
}

static struct channel *make_channel(size_t n) {
    size_t bytes = sizeof(struct channel) + n * sizeof(struct token);
    struct channel *channel = aligned_alloc(64, bytes);
    if (channel == NULL)
        return NULL;
    channel->waiting = (fak_channel_waiting){park, unpark, pause_or_yield, channel, 0, n, 0};
    for (size_t i = 0; i < n; i++)
        channel->tokens[i].is_set = channel->tokens[i].parked = 0;
    return channel;
}

/* Opens the channel, and moves its seats to the ends. */
static int32_t open_over(fak_c_seat *seats, struct channel *channel, fak_channel_end *ends, size_t n, uint64_t size, uint64_t stint) {
    int32_t code;
    if (seats == NULL || channel == NULL)
        return FAK_C_MEMORY;
    code = fak_channel_open(seats, n, size, stint);
    for (size_t i = 0; code == FAK_C_OK && i < n; i++)
        code = fak_channel_end_of(&seats[i], &channel->waiting, &ends[i]);
    return code;
}

int32_t fak_channel_open_ends(fak_channel_end *ends, size_t n, uint64_t size, uint64_t stint) {
    fak_c_seat *seats;
    struct channel *channel;
    int32_t code;
    if (!FAK_C_IS_SEATS(n) || !FAK_C_IS_SIZE(size) || !FAK_C_IS_STINT(n, stint))
        return FAK_C_BAD_LIMIT;
    for (size_t i = 0; i < n; i++)
        if (ends[i].seat.at != NULL)
            return FAK_C_WRONG_STATE;
    seats = calloc(n, sizeof *seats);
    channel = make_channel(n);
    code = open_over(seats, channel, ends, n, size, stint);
    if (code != FAK_C_OK)
        free(channel);
    free(seats);
    return code;
}

int32_t fak_channel_shared_open(
    fak_channel_shared *shared, fak_channel_end *ends, size_t senders, size_t receivers, uint64_t size, uint64_t stint) {
    int32_t code = FAK_C_BAD_LIMIT;
    if (is_number_of_ends(senders, receivers))
        code = fak_channel_open_ends(ends, FAK_CHANNEL_SHARED_ENDS(senders, receivers), size, stint);
    return code == FAK_C_OK ? fak_channel_shared_over(shared, ends, senders, receivers) : code;
}

static void free_waiting(fak_channel_waiting *waiting) {
    if (waiting->park == park)
        free(waiting->context);
}

#else

static void free_waiting(fak_channel_waiting *waiting) {
    (void)waiting;
}

#endif
