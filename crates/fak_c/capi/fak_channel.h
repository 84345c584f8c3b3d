/* A bounded channel, first in first out, for programs and kernels in C. Any end sends, receives and closes. Its threads sleep while
 * they wait, and wake up when they can go on.
 *
 * There are three ways to call it:
 * - "Ends": a thread has an end of its own. Its calls sleep, by a futex on Linux, or by two functions of yours.
 * - "A shared channel": any thread calls, and borrows an end for the call.
 * - "Steps": no call waits. Use them in an interrupt handler, or in a runtime that keeps its waiting tasks in lists of its own.
 *
 * The steps are in libfak_c.a, proved, and so is which end a caller borrows ("Lending"). Ends and the shared channel are C over these, in
 * fak_channel.c, and tested. Compile it with your program, or link libfak_channel.a of an installed prefix. Under ThreadSanitizer compile
 * it with the program.
 *
 * What C owes, besides what fak_c.h says:
 * - An end starts as {0} (in C++ as {}), is never copied, and is written only by these calls. fak_channel_move moves it.
 * - One call at a time on an end. Any number of threads call a shared channel at once. Compiled under ThreadSanitizer, fak_channel.c tells
 *   it of each call of an end, so that it reports two calls that nothing orders.
 * - No signal handler calls an end or a shared channel. A handler may call by steps on an end of its own, as fak_c.h says. A handler
 *   may interrupt a call: the call goes on, and a signal doesn't end its sleep. No call is a cancellation point.
 * - A thread that is killed in a call holds up calls of others. The forked child of a process with threads must not call any of these.
 * - Calls wait for steps of others in a few places, and spin and yield there. Under SCHED_FIFO or SCHED_RR a yield runs no thread of a
 *   lower priority. So a thread that has preempted such a thread during its call, and leaves it no processor, spins forever. Give all
 *   threads that call one channel the same priority.
 *
 * Order. What a thread wrote before it sent an item is there for the thread that receives it. What it wrote before it closed the
 * channel is there after a call that returns FAK_C_CLOSED. fak_channel.c tells ThreadSanitizer so, for sends, receives and closes: as if
 * each send came before each later receive of the channel. A caller by steps tells it by FAK_C_GIVES and FAK_C_GETS (fak_c.h).
 *
 * Which sleeper wakes up first is not promised, and a new caller may be faster than one that was woken, or waits for an end.
 *
 * Never sleep on a refusal of a try by means of your own (fak_c.h): the calls below that sleep do it right.
 *
 * In a freestanding build of fak_channel.c there are no futexes: fak_channel_open_ends, fak_channel_shared_open and fak_channel_deadline
 * are missing.
 *
 * What the calls use. Stack: below 768 bytes in a step; below 4,608 in fak_c_leave; below 8,192 in fak_channel_open. The calls of ends and
 * of a shared channel add below 512 bytes. Heap: what "Sizes" below says; only calls that open allocate. Processor time: a sleeping thread
 * uses none. Before it sleeps on a futex, a thread looks for a wake-up for some microseconds.
 *
 * To open a channel of 64 cells with 64 ends, and to leave it with all, took about 100 microseconds on memory that nobody had touched, and
 * 15 on memory from before; with 1,024 of each, 1,300 and 250. The processors were busy. So open a channel once, and not for each job. */
#ifndef FAK_CHANNEL_H
#define FAK_CHANNEL_H

#include "fak_c.h"

#ifdef __cplusplus
extern "C" {
#endif

/* ---- Items ----
 *
 * An item is always four words. Use as many as you like, and leave the others 0. What a pointer in an item points to stays with the
 * caller. */
typedef struct fak_channel_item {
    uint64_t word[4];
} fak_channel_item;

/* An item of one word, or of one pointer, and the pointer in such an item. */
static inline fak_channel_item fak_channel_of_word(uint64_t word) {
    fak_channel_item item = {{word, 0, 0, 0}};
    return item;
}

static inline fak_channel_item fak_channel_of_pointer(const void *pointer) {
    return fak_channel_of_word((uintptr_t)pointer);
}

static inline void *fak_channel_pointer_of(const fak_channel_item *item) {
    return (void *)(uintptr_t)item->word[0];
}

/* ---- Sizes ----
 *
 * The bytes that a channel with n ends and `size` cells keeps of the heap, and those of a block (block.h) that it opens in. Ends that
 * sleep on futexes keep 64 bytes each besides, and 64 together. */
#define FAK_CHANNEL_KEEPS(n, size) (896 + 800 * (size_t)(n) + 48 * (size_t)(size))
#define FAK_CHANNEL_BYTES(n, size) (1856 + 952 * (size_t)(n) + 96 * (size_t)(size))

/* ---- Ends ----
 *
 * Each thread that calls has an end of its own. The number of an end is its place in the array that was opened, from 0. */

/* How the threads of one channel wait. fak_channel_open_ends makes one over futexes. A kernel or a runtime brings its own, one for each
 * channel: zeros first, then these functions.
 *
 * Each number has a token. `unpark` sets the token of this number, and wakes a thread that is parked there. `park` returns true once the
 * token is set, and clears it. Spurious wake-ups are allowed. It returns false if the deadline has passed and the token is not set.
 * Deadlines are yours: these calls only hand them on, except that FAK_CHANNEL_NEVER never passes, and that no call parks with a deadline
 * of 0. Only the thread that uses an end parks at its number. But at the numbers of the first two ends of a shared channel any number of
 * threads may park; then an `unpark` has to wake one of them at least.
 *
 * An `unpark` may come for an end that has left: a call of another end was about to wake it when its deadline passed. So keep the waiting,
 * and what `unpark` uses for each number, until all ends of the channel have left. A thread that has left may have ended.
 *
 * `pause` waits a moment for a step of another thread. `rounds` is how many pauses came just before: spin at first, and soon yield, so that
 * a thread that doesn't run gets the processor. A null pointer spins. */
typedef struct fak_channel_waiting {
    bool (*park)(void *context, uint64_t number, uint64_t deadline);
    void (*unpark)(void *context, uint64_t number);
    void (*pause)(void *context, uint64_t rounds);
    void *context;
    uint64_t ends;  /* how many ends wait so; written only by these calls */
    uint64_t seats; /* how many seats the channel was opened with. 0 if no end drops what is left (fak_channel_leave_with) */
    uint64_t gone;  /* how many of these have left as ends; written only by these calls */
} fak_channel_waiting;

#define FAK_CHANNEL_NEVER UINT64_MAX

/* An end of a channel, or nothing, if it is all zeros. The seat is for fak_channel_len, fak_channel_is_closed, fak_channel_state and calls
 * by steps. */
typedef struct fak_channel_end {
    fak_c_seat seat;
    fak_channel_waiting *waiting;
    uint64_t number;
    uint64_t after[6];
} fak_channel_end;

/* Opens a channel of `size` cells (1 to 2^24), and gives each of the n ends (1 to 1,024) a seat of it. The ends are empty before. Threads
 * sleep on futexes of Linux. An end may send and receive `stint` items (at least 1, and n times the stint is at most 2^50). A refused
 * call, one that gives up, and a close do not count. FAK_C_MOST_CALLS / n is the longest stint.
 *
 * FAK_C_OK; FAK_C_BAD_LIMIT, FAK_C_MEMORY, or FAK_C_WRONG_STATE if an end has a seat: then the ends stay as they were. */
int32_t fak_channel_open_ends(fak_channel_end *ends, size_t n, uint64_t size, uint64_t stint);

/* Moves a seat of fak_channel_open to an empty end, whose thread waits by `waiting`. All ends of a channel have the same, and use it until
 * the last of them has left.
 *
 * FAK_C_OK; FAK_C_NO_SEAT if the seat is not one of a channel; FAK_C_WRONG_STATE if the end has a seat, or the seat has an open call. */
int32_t fak_channel_end_of(fak_c_seat *seat, fak_channel_waiting *waiting, fak_channel_end *end);

/* Sends the item, and sleeps while the channel is full. If the call returns another code than FAK_C_OK, the item was not sent.
 *
 * FAK_C_OK; FAK_C_CLOSED; FAK_C_WORN; FAK_C_NO_SEAT, or FAK_C_WRONG_STATE if a call by steps is open. */
int32_t fak_channel_send(fak_channel_end *end, const fak_channel_item *item);

/* Receives the oldest item, and sleeps while the channel is empty. The item is written only with FAK_C_OK.
 *
 * FAK_C_OK; FAK_C_CLOSED if the channel was closed and has no item left; FAK_C_WORN; FAK_C_NO_SEAT or FAK_C_WRONG_STATE. */
int32_t fak_channel_receive(fak_channel_end *end, fak_channel_item *item);

/* Sends or receives, and never sleeps. A refusal as FAK_C_FULL or FAK_C_EMPTY is about one moment of the call.
 *
 * The codes of fak_channel_send and fak_channel_receive; FAK_C_FULL of a send, FAK_C_EMPTY of a receive. */
int32_t fak_channel_try_send(fak_channel_end *end, const fak_channel_item *item);
int32_t fak_channel_try_receive(fak_channel_end *end, fak_channel_item *item);

/* Sends or receives, and sleeps until the deadline at most. The deadline is in nanoseconds of CLOCK_MONOTONIC, or of the clock of your own
 * `park`. Only a call that has to sleep looks at the deadline. If it has passed by then, the call gives up at once.
 *
 * The codes of fak_channel_send and fak_channel_receive; FAK_C_GAVE_UP once the deadline has passed. */
int32_t fak_channel_send_until(fak_channel_end *end, const fak_channel_item *item, uint64_t deadline);
int32_t fak_channel_receive_until(fak_channel_end *end, fak_channel_item *item, uint64_t deadline);

/* The deadline `nanoseconds` from now, by CLOCK_MONOTONIC. */
uint64_t fak_channel_deadline(uint64_t nanoseconds);

/* Closes the channel, and never sleeps. Sends are refused as FAK_C_CLOSED from now on. Receivers get what is left, and then FAK_C_CLOSED.
 * All that sleep wake up.
 *
 * FAK_C_OK; FAK_C_CLOSED if it was closed before; FAK_C_NO_SEAT or FAK_C_WRONG_STATE. */
int32_t fak_channel_close(fak_channel_end *end);

/* Gives up the end, which is empty then. The last seat to leave frees the channel, with the items that are still in it. If items own
 * something, let `drop` free it: the last seat passes it each item that is left, oldest first. A null pointer drops nothing. If the stint
 * of the last seat runs out meanwhile, the remaining items are not passed.
 *
 * Items are dropped only if every seat leaves as an end, and the last one with `drop`. So a seat that is called by steps becomes an end
 * before it leaves (fak_channel_end_of). If one leaves by fak_c_leave, no end drops anything, since others may still receive. Then the
 * memory by which the ends of fak_channel_open_ends sleep is never freed.
 *
 * Leaving does not close, not even if no sender is left: receivers sleep on. Close first, as `Sender` of fak_channel.hpp and of the crate
 * for Rust does when the last one goes.
 *
 * FAK_C_OK; FAK_C_NO_SEAT, or FAK_C_WRONG_STATE if a call by steps is open; FAK_C_BAD_LIMIT if `drop` is not null, and `seats` of the
 * end's waiting is 0. */
int32_t fak_channel_leave(fak_channel_end *end);
int32_t fak_channel_leave_with(fak_channel_end *end, void (*drop)(void *context, const fak_channel_item *item), void *context);

/* Moves the seat of an end to an empty end.
 *
 * FAK_C_OK; FAK_C_NO_SEAT; or FAK_C_WRONG_STATE if `to` has a seat. Both ends stay as they were then. */
int32_t fak_channel_move(fak_channel_end *end, fak_channel_end *to);

/* ---- A shared channel ----
 *
 * For callers that hold no end. Each call borrows one, and a caller sleeps while all of its side are lent. A caller that sleeps in a full
 * or an empty channel keeps its end, so senders and receivers borrow from two lenders. The number of ends bounds how many threads
 * sleep in the channel itself, and how many call at the same time, but not how many use it. As many ends as processors are enough for a
 * side. One for each thread that often sleeps there saves some wake-ups.
 *
 * Two ends more serve closes and looks. */
#define FAK_CHANNEL_SHARED_ENDS(senders, receivers) ((senders) + (receivers) + 2)

/* Which ends of one side callers have borrowed. Written only by the calls of "Lending". */
typedef struct fak_channel_lending {
    uint64_t count;   /* how many ends there are */
    uint64_t worn;    /* how many have used up their stint */
    uint64_t waiting; /* how many callers wait for an end */
    uint64_t woken;   /* 1 if one of these was woken, and none has looked again since then */
    uint64_t idle[FAK_C_MOST_SEATS / 64]; /* a bit for each end that nobody has borrowed */
} fak_channel_lending;

/* The ends of one side, and the lock of what is lent. Written only by these calls. */
typedef struct fak_channel_lender {
    fak_channel_end *ends;
    uint64_t lock; /* 1 during a call of "Lending" */
    fak_channel_lending lending;
    uint64_t unused[2];
} fak_channel_lender;

/* It starts as zeros, and each of its calls returns FAK_C_NO_SEAT then. While it is shared, neither it nor its ends are copied or moved. */
typedef struct fak_channel_shared {
    fak_channel_end *ends;
    uint64_t closes; /* whether a caller has the first end, which closes */
    uint64_t looks;  /* whether a caller has the second end, which looks */
    uint64_t unused[5];
    fak_channel_lender senders, receivers;
} fak_channel_shared;

/* Opens a channel as fak_channel_open_ends does, and shares it. There are FAK_CHANNEL_SHARED_ENDS(senders, receivers) ends, 4 to 1,024,
 * with at least one sender and one receiver.
 *
 * FAK_C_OK; FAK_C_BAD_LIMIT, FAK_C_MEMORY or FAK_C_WRONG_STATE, as fak_channel_open_ends. */
int32_t fak_channel_shared_open(
    fak_channel_shared *shared, fak_channel_end *ends, size_t senders, size_t receivers, uint64_t size, uint64_t stint);

/* Shares FAK_CHANNEL_SHARED_ENDS(senders, receivers) ends of one open channel. The channel may have other ends. The ends may have been
 * moved. Callers that wait for an end park at the numbers of the first two.
 *
 * FAK_C_OK; FAK_C_BAD_LIMIT; FAK_C_NO_SEAT if an end is empty. */
int32_t fak_channel_shared_over(fak_channel_shared *shared, fak_channel_end *ends, size_t senders, size_t receivers);

/* The calls of an end, for any thread, by an end that each borrows. It sleeps while all ends of its side are lent, and then as the call
 * above does. A deadline bounds both sleeps.
 *
 * The codes of the same calls above. FAK_C_WORN is returned only if each end of the side has used up its stint. */
int32_t fak_channel_shared_send(fak_channel_shared *shared, const fak_channel_item *item);
int32_t fak_channel_shared_receive(fak_channel_shared *shared, fak_channel_item *item);
int32_t fak_channel_shared_send_until(fak_channel_shared *shared, const fak_channel_item *item, uint64_t deadline);
int32_t fak_channel_shared_receive_until(fak_channel_shared *shared, fak_channel_item *item, uint64_t deadline);

/* The tries, which never sleep.
 *
 * The codes of the same calls above, FAK_C_WORN as above; FAK_C_BUSY if all ends of the side are lent, whatever is in the channel. */
int32_t fak_channel_shared_try_send(fak_channel_shared *shared, const fak_channel_item *item);
int32_t fak_channel_shared_try_receive(fak_channel_shared *shared, fak_channel_item *item);

/* The close and the looks, which never sleep.
 *
 * The codes of the same calls of an end. */
int32_t fak_channel_shared_close(fak_channel_shared *shared);
int32_t fak_channel_shared_len(fak_channel_shared *shared, uint64_t *items);
int32_t fak_channel_shared_is_closed(fak_channel_shared *shared, bool *is_closed);

/* Gives up all ends. Call it once no thread is in a call: FAK_C_WRONG_STATE does not find each of these. Later calls return FAK_C_NO_SEAT.
 * If all other seats of the channel have left as ends, what is left is dropped as by fak_channel_leave_with. Leaving does not close.
 *
 * FAK_C_OK; FAK_C_NO_SEAT; FAK_C_WRONG_STATE if an end is lent, or has an open call by steps; FAK_C_BAD_LIMIT as fak_channel_leave_with. A
 * refused call gives up none. */
int32_t fak_channel_shared_leave(fak_channel_shared *shared);
int32_t fak_channel_shared_leave_with(
    fak_channel_shared *shared, void (*drop)(void *context, const fak_channel_item *item), void *context);

/* ---- Steps ----
 *
 * The calls by steps never wait. A seat of a channel is a further kind of fak_c_seat: fak_c_leave gives it up, and fak_c_move moves it.
 * A call is begun, and then fak_channel_step is called until it returns a code with which the call is done.
 *
 * An end may be called by steps, too, with its seat (`&end.seat`). It wakes others, whether they sleep on futexes or by functions of yours,
 * by end.waiting->unpark(end.waiting->context, number). On futexes a signal handler may do so. For ThreadSanitizer the address that ends
 * use is that of their waiting: FAK_C_GIVES(end.waiting) and FAK_C_GETS(end.waiting). */

/* The state of a channel's seat, as fak_channel_state writes it. */
enum {
    FAK_CHANNEL_IDLE = 0,    /* no call is open */
    FAK_CHANNEL_OPEN = 1,    /* a call is open: fak_channel_step is next */
    FAK_CHANNEL_SLEEPING = 2 /* a call is open, and sleeps, or would if it were no try: fak_channel_step, or fak_channel_give_up */
};

/* Opens an empty channel of `size` cells (1 to 2^24). The handle of index i gets the end of number i.
 *
 * FAK_C_OK, FAK_C_BAD_LIMIT or FAK_C_MEMORY. */
int32_t fak_channel_open(fak_c_seat *ends, size_t n, uint64_t size, uint64_t stint);

/* Begins a call. The end must be idle. With FAK_C_OK the call is open. With any other code no call is open, and the item was not
 * taken. The two tries look first, and may be refused then. A tried call goes on like any other, except that its caller gives up instead
 * of sleeping.
 *
 * FAK_C_OK; FAK_C_NO_SEAT or FAK_C_WRONG_STATE; of a send and a receive also FAK_C_WORN; of a tried send also FAK_C_CLOSED or FAK_C_FULL,
 * of a tried receive also FAK_C_CLOSED (closed and drained) or FAK_C_EMPTY. */
int32_t fak_channel_begin_send(fak_c_seat *end, const fak_channel_item *item);
int32_t fak_channel_begin_receive(fak_c_seat *end);
int32_t fak_channel_begin_try_send(fak_c_seat *end, const fak_channel_item *item);
int32_t fak_channel_begin_try_receive(fak_c_seat *end);
int32_t fak_channel_begin_close(fak_c_seat *end);

/* Takes one more step of the open call.
 *
 * With the first three codes the call stays open:
 * - FAK_C_NOT_YET: it waits for a step of another end's open call, or has taken many steps, and has more to take. Yield the processor,
 *   and step again. A coroutine that only yields to others of its thread keeps the processor from the thread that has to step.
 * - FAK_C_WAKES: wake the thread of the end of `number` now, and step again.
 * - FAK_C_SLEEPS: sleep until this end is woken, and step again. A step that finds no wake-up returns this code again. Nobody wakes a tried
 *   call: give it up, or step again to try once more.
 * - FAK_C_OK: the item was sent; or was received, and is written to `item`; or the channel was open, and is closed now.
 * - FAK_C_CLOSED: the channel is closed. A send's item is written to `item`. To a receive nothing is left. A close found it closed.
 * - FAK_C_NO_SEAT; or FAK_C_WRONG_STATE if no call is open.
 *
 * Nothing else is written. A wake-up may be stale, if its end's call is over; that does no harm. */
int32_t fak_channel_step(fak_c_seat *end, fak_channel_item *item, uint64_t *number);

/* Gives up the open call, which sleeps: its last step returned FAK_C_SLEEPS.
 *
 * FAK_C_GAVE_UP if the call is done, and a send's item is written to `item`; FAK_C_NOT_YET if it was woken before: the call stays open,
 * and fak_channel_step is next; FAK_C_NO_SEAT, or FAK_C_WRONG_STATE if no call of the end sleeps. */
int32_t fak_channel_give_up(fak_c_seat *end, fak_channel_item *item);

/* Each looks once: at the items that are ready, or whether the channel was closed. The end may be in any state.
 *
 * FAK_C_OK or FAK_C_NO_SEAT. */
int32_t fak_channel_len(fak_c_seat *end, uint64_t *items);
int32_t fak_channel_is_closed(fak_c_seat *end, bool *is_closed);

/* Writes the end's number, its state, and how many items are left of its stint. Changes nothing.
 *
 * FAK_C_OK or FAK_C_NO_SEAT. */
int32_t fak_channel_state(fak_c_seat *end, uint64_t *number, uint32_t *state, uint64_t *left);

/* ---- Lending ----
 *
 * Who borrows which end of a side, and who waits for one, as plain words. A shared channel makes these calls. No call waits, and none
 * touches an end. So a runtime may lend by them what it likes, to callers that wait by means of its own.
 *
 * What C owes: each call is made under a lock of the lending, which no caller holds while it parks or wakes another. A caller that waits
 * parks, and then looks again. If a call writes that `wakes` is true, one parked caller is woken after the call. If none is parked yet, the
 * next park returns at once. It does no harm if a caller looks again without having been woken.
 *
 * Proved: whenever an end is idle, or all are worn, nobody waits, or a caller was woken and has not looked again yet. An end that is lent
 * was idle, and is not idle until it is given back. */

/* Opens a lending of `count` ends (1 to 1,024), which are numbered from 0. All are idle, and nobody waits.
 *
 * FAK_C_OK, or FAK_C_BAD_LIMIT, and nothing changes. */
int32_t fak_channel_lending_open(fak_channel_lending *lending, uint64_t count);

/* Borrows an idle end, and writes its number. If none is idle and the caller may wait, it is counted as waiting.
 *
 * FAK_C_OK; FAK_C_WORN if all ends are worn; FAK_C_SLEEPS if the caller waits now, else FAK_C_GAVE_UP. */
int32_t fak_channel_lending_borrow(fak_channel_lending *lending, bool may_wait, uint64_t *number);

/* The same for a caller that waits, after each park. It waits on only with FAK_C_SLEEPS. `wakes` is always written.
 *
 * FAK_C_OK; FAK_C_WORN if all ends are worn; FAK_C_SLEEPS if the caller is in time, else FAK_C_GAVE_UP. */
int32_t fak_channel_lending_look_again(fak_channel_lending *lending, bool in_time, uint64_t *number, bool *wakes);

/* Gives back the end of this number, which is idle then; or retires it: it is worn, and nobody borrows it again. Each loan ends once, by
 * one of these two calls: a second one may end the loan of another caller, or bring a worn end back.
 *
 * FAK_C_OK; FAK_C_WRONG_STATE if the end is idle, or there is none of this number: nothing changes then, and nothing is written. */
int32_t fak_channel_lending_give_back(fak_channel_lending *lending, uint64_t number, bool *wakes);
int32_t fak_channel_lending_retire(fak_channel_lending *lending, uint64_t number, bool *wakes);

/* Writes whether each end is idle or worn, and nobody waits.
 *
 * FAK_C_OK. */
int32_t fak_channel_lending_is_at_rest(const fak_channel_lending *lending, bool *is_at_rest);

#ifdef __cplusplus
}
#endif

#endif
