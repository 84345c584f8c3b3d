/* What the tests of the channel in C share. */
#ifndef FAK_CHANNEL_TESTS_H
#define FAK_CHANNEL_TESTS_H

#include "fak_channel.h"
#include "tests.h"

#include <time.h>

/* How long a test waits for what may not happen, in nanoseconds. */
#define A_WHILE UINT64_C(20000000)
/* Longer than a thread looks at its token before it sleeps, on a busy machine too: it yields meanwhile. */
#define A_LONG_WHILE UINT64_C(500000000)

static inline void rest_a_while(void) {
    CHECK(nanosleep(&(struct timespec){0, A_WHILE}, NULL) == 0);
}

/* The processor time of this thread, in nanoseconds. */
static inline uint64_t processor_time(void) {
    struct timespec time;
    CHECK(clock_gettime(CLOCK_THREAD_CPUTIME_ID, &time) == 0);
    return (uint64_t)time.tv_sec * 1000000000 + (uint64_t)time.tv_nsec;
}

/* Calls by steps that sleep, and stints that run out, on one thread. */
void sleepers_wake_by_steps(void);

/* Deadlines, pointers and functions of the caller's own, of ends and of a shared channel, on one thread. */
void ends_wait(void);
void shared_ends_are_lent(void);

/* Seats that leave in each order, as ends and by steps: who still receives, and what the last one drops. */
void each_leave_is_counted(void);

/* Several threads leave at once, and one of them is the last. */
void leaves_race(uint64_t rounds);

/* Callers of a shared channel that sleep and wait for ends, deadlines, moved and worn ends, signals. */
void each_wait_ends(void);

/* A thread that is cancelled while it sleeps ends its call first. The address sanitizer cannot run this. */
void a_cancelled_call_ends_first(void);

/* Two callers share one end: none of them sleeps on while it is idle. */
void callers_take_turns(uint64_t rounds);

/* What one thread wrote before it closed the channel is there for another that finds it closed. So is what it wrote before a send by
 * steps. */
void what_is_written_is_handed_over(void);

/* Each allocation of an opening fails in turn. */
void each_channel_allocation_fails_in_turn(void);

/* More threads than processors send, try, wait until deadlines and close: each item comes once. With their own ends, with ends that are
 * lent, and with functions of the tests that park. */
void ends_storm(uint64_t items);
void a_shared_channel_storms(uint64_t items);
void own_parks_storm(uint64_t items);

/* One of several closes at once makes it. */
void closes_race(uint64_t rounds);

/* This many threads sleep, without processor time, and wake up: by as many items, and by a close, on each side. */
void sleepers_wake(size_t sleepers);

#endif
