/* What the tests in C share. */
#ifndef FAK_C_TESTS_H
#define FAK_C_TESTS_H

#include "check.h"
#include "fak_c.h"

/* A long stint, which each of 1,024 seats may have. */
#define LONG_STINT (UINT64_C(1) << 40)

/* What an object may be opened with, at most: its seats, the cells of its queue, and the calls of all its seats together. */
#define LARGE_SEATS 1024
#define LARGE_SIZE (UINT64_C(1) << 24)
#define LARGE_CALLS (UINT64_C(1) << 50)

/* On either side of each limit the code is FAK_C_BAD_LIMIT exactly if FAK_C_IS_.. says that a number is out of range. Each size, each
 * number of seats and each width of a stint is opened. */
void each_limit_is_named(void);

/* Seats that take turns pause as long as they should, at each size of a queue. They do not pause if the queue has few cells, or if
 * nothing spins. */
void pauses_have_their_length(bool spins);

/* Each allocation of an opening fails in turn. */
void each_allocation_fails_in_turn(void);

/* This many producers and as many consumers share a queue. */
void threads_share_a_queue(int pairs, uint64_t items);

/* Threads share a semaphore, a room, a credit and a file table. */
void threads_share_objects(uint64_t rounds);

/* Memory that one thread fills and another reads: its pointer goes through a queue. */
void memory_is_handed_over(uint64_t items);

/* A queue is shut while threads insert into it, and drained. */
void a_shut_queue_is_drained(uint64_t items);

/* Limits of bundles, and random bursts compared with a plain list, on one thread. */
void bursts_are_those_of_a_list(void);

/* This many producers and as many consumers share a queue, half of them by bursts. */
void threads_share_a_queue_by_bursts(int pairs, uint64_t items);

/* The same of a queue that is shut, and drained by bursts. */
void a_shut_queue_is_drained_by_bursts(uint64_t items);

/* Other threads insert and delete while a claimed burst waits. */
void a_waiting_burst_stops_nobody(void);

/* Memory that one thread fills and another reads: its pointers go through a queue by bursts. */
void memory_is_handed_over_by_bursts(uint64_t items);

#endif
