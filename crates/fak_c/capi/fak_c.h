/* Queues, semaphores, rooms, credits and file tables that threads or processors share without locks, for programs and kernels
 * in C. Items are 64-bit numbers, or pointers as uintptr_t.
 *
 * An object is its seats. Each thread, or each processor of a kernel, has a seat of its own behind a handle. The last seat that
 * leaves frees the object. No call waits: if it returns FAK_C_NOT_YET, FAK_C_FULL, FAK_C_EMPTY or FAK_C_BUSY, the caller may try
 * again. Only calls that open objects allocate, and only these and fak_c_leave free memory.
 *
 * Never sleep on a refusal: it counts claims that others are about to take back. "Queues" below says more, and how a thread sleeps.
 *
 * What C owes, and nothing checks:
 * - One call at a time on a handle. A handle that goes to another thread is handed over in order: by a lock, by the start or
 *   join of a thread, by the switch of a processor from one thread to the next, or by a sequentially consistent atomic.
 * - A handle starts as {0} (in C++ as {}), is never copied, and is written only by these calls. fak_c_move moves a seat to another
 *   handle.
 * - Pointers are distinct: what one argument of a call points to does not overlap what another points to. They are aligned and not
 *   null, except that fak_c_put and fak_c_get take null for the ticket. What they point to is initialised, also if the call only
 *   writes it (a bool is true or false).
 * - The heap (below) is one heap that many threads may call, and aligns to 16 bytes. With block.c one thread opens at a time, unless
 *   block.c is compiled with a heap next to it (block.h).
 *
 * Each call tests what C can't prove: that the handle has a seat of the kind of object that the call is for (else FAK_C_NO_SEAT),
 * that the seat is in the state that the call needs, and that its stint lasts. A call writes through an out-pointer only what its
 * comment says. A call that returns FAK_C_NO_SEAT or FAK_C_WRONG_STATE writes nothing and changes nothing.
 *
 * The calls synchronise by sequentially consistent atomics. What a thread wrote before it inserted an item, a pointer or a
 * number, is there for the thread that takes the item out. What it wrote before an up is there after a down that passes, and
 * after a wake. ThreadSanitizer doesn't see inside the library, so tell it. Call FAK_C_GIVES(address) before the insertion, the up
 * or the claim of a down. Call FAK_C_GETS(address) after the item was taken out, the down passed or the item woke. Any address that
 * both sides know will do, for instance that of a counter that a semaphore guards.
 *
 * Interrupts and signals. A handler may call everything except fak_c_leave and the calls that open, on one of two conditions:
 * - It has seats of its own, which nobody else uses. Then it must not try again until FAK_C_OK: the call that it interrupted
 *   may be the one whose ticket comes first, and that call can't go on before the handler ends. It leaves its call open, and
 *   goes on when it runs next. An NMI handler has only this choice.
 * - Or interrupts are off from each claim to the end of its call, in all code that uses the handler's objects. Then the handler may
 *   use the seats of its processor, and try again until FAK_C_OK.
 *
 * The calls that open, and fak_c_leave, call the heap, which the interrupted code may be in. The forked child of a process with
 * threads must not call any of these.
 *
 * For kernels there are two archives with the same calls: one that LLVM compiled, and one that Rattle's own compiler compiled. The first
 * uses SSE registers in any call, also if its caller is compiled without them; the second only in calls that open or free an object.
 * The README of an installed prefix says what each contains. Both need these functions, and no others: rattle_alloc, rattle_realloc and
 * rattle_dealloc, from libfak_c_heap.a over malloc, realloc and free, or from block.c over memory of your own. The first archive also needs
 * memcpy and memset.
 *
 * What the calls use, except those of a channel (fak_channel.h). Stack: below 256 bytes; below 768 in a burst; below 4,608 in
 * fak_c_leave; below 6,144 in a call that opens. Heap: what "Sizes" below says, and more while an object is opened (block.h). Time: to
 * open a queue of 64 cells with 64 seats, and to leave it with all, took 35 microseconds on memory that nobody had touched, and 5 on
 * memory from before; with 1,024 of each, 400 and 200. So open an object once, and not for each job. */
#ifndef FAK_C_H
#define FAK_C_H

#include <stdbool.h>
#include <stddef.h>
#include <stdint.h>

#ifdef __cplusplus
extern "C" {
#endif

#if defined(__SANITIZE_THREAD__)
#define FAK_C_THREAD_SANITIZER 1
#elif defined(__has_feature)
#if __has_feature(thread_sanitizer)
#define FAK_C_THREAD_SANITIZER 1
#endif
#endif
#ifdef FAK_C_THREAD_SANITIZER
void __tsan_release(void *address);
void __tsan_acquire(void *address);
#define FAK_C_GIVES(pointer) __tsan_release(pointer)
#define FAK_C_GETS(pointer) __tsan_acquire(pointer)
#else
#define FAK_C_GIVES(pointer) ((void)(pointer))
#define FAK_C_GETS(pointer) ((void)(pointer))
#endif

#define FAK_C_KEPT __attribute__((used)) /* neither the compiler nor, with `retain`, the linker drops the variable */
#if defined(__has_attribute)
#if __has_attribute(retain)
#undef FAK_C_KEPT
#define FAK_C_KEPT __attribute__((used, retain))
#endif
#endif

/* ---- Version ----
 *
 * The version of this header. Each object that includes it refers to a symbol that only an archive of the same version has. So the linker
 * refuses an archive of another version, and its message names this symbol. Define FAK_C_ANY_VERSION before the header if nothing is to be
 * compared. */
#define FAK_C_VERSION_MAJOR 0
#define FAK_C_VERSION_MINOR 1
#define FAK_C_VERSION_PATCH 0
#define FAK_C_VERSION "0.1.0"
#define FAK_C_VERSION_SYMBOL fak_c_header_0_1_0_needs_archive_0_1_0

extern const char FAK_C_VERSION_SYMBOL[];
#ifndef FAK_C_ANY_VERSION
static const char *const fak_c_needs_version FAK_C_KEPT = FAK_C_VERSION_SYMBOL;
#endif

/* A handle. It owns a seat of one object, or nothing if it is all zeros. The unused bytes keep its pointer on a cache line of 64 bytes
 * that no other handle uses, at any address. */
typedef struct fak_c_seat {
    uint64_t before[8];
    void *at;
    uint64_t after[7];
} fak_c_seat;

enum {
    FAK_C_OK = 0,          /* the call was made */
    FAK_C_NOT_YET = 1,     /* the call stays open: try again */
    FAK_C_FULL = 2,        /* the queue, the channel or the room had no room */
    FAK_C_EMPTY = 3,       /* the queue or the channel had no item */
    FAK_C_CLOSED = 4,      /* the queue was shut, or the channel was closed */
    FAK_C_WORN = 5,        /* the seat has made all the calls of its stint */
    FAK_C_NO_SEAT = 6,     /* the handle has no seat of this kind of object */
    FAK_C_WRONG_STATE = 7, /* the seat is in another state than this call needs */
    FAK_C_BAD_LIMIT = 8,   /* a number is out of range */
    FAK_C_MEMORY = 9,      /* there was no memory */
    FAK_C_PARKS = 10,      /* the down parks its item: fak_c_sem_try_park is next */
    FAK_C_WAKES = 11,      /* the up owes a wake: fak_c_sem_try_wake is next; or a channel's end is to be woken (fak_channel.h) */
    FAK_C_BUSY = 12,       /* others hold the file table, or try to; or all ends of a shared channel are lent */
    FAK_C_SLEEPS = 13,     /* the call of a channel's end stays open, and sleeps (fak_channel.h) */
    FAK_C_GAVE_UP = 14     /* the call of a channel's end was given up */
};

/* ---- Limits ----
 *
 * A call that opens returns FAK_C_BAD_LIMIT exactly if one of its numbers is out of range. The macro FAK_C_IS_.. of that number is
 * false then. fak_c_room_tir and fak_c_room_release test their amount in the same way. The second also refuses more than the seat
 * holds. */
#define FAK_C_MOST_SEATS 1024
#define FAK_C_MOST_CELLS 16777216                    /* 2^24 */
#define FAK_C_MOST_CALLS UINT64_C(1125899906842624)  /* 2^50: of all seats of an object together */
#define FAK_C_MOST_START UINT64_C(4294967296)        /* 2^32: the start of a semaphore or credit, the bound of a room */
#define FAK_C_MOST_ENTRIES 16
#define FAK_C_MOST_AMOUNT 1024

#define FAK_C_IS_SEATS(n) ((n) >= 1 && (n) <= FAK_C_MOST_SEATS)
#define FAK_C_IS_STINT(n, stint) ((stint) >= 1 && (n) >= 1 && (stint) <= FAK_C_MOST_CALLS / (n))
#define FAK_C_IS_SIZE(size) ((size) >= 1 && (size) <= FAK_C_MOST_CELLS)
#define FAK_C_IS_START(start) ((start) <= FAK_C_MOST_START)
#define FAK_C_IS_ENTRIES(entries) ((entries) >= 1 && (entries) <= FAK_C_MOST_ENTRIES)
#define FAK_C_IS_AMOUNT(amount) ((amount) >= 1 && (amount) <= FAK_C_MOST_AMOUNT)
/* n seats and m bundles of `width` seats each; their stint is one that FAK_C_IS_STINT(n + m * width, stint) allows. */
#define FAK_C_IS_BUNDLES(n, m, width) \
    ((n) <= FAK_C_MOST_SEATS && (m) >= 1 && (width) >= 1 && (width) <= (FAK_C_MOST_SEATS - (n)) / (m))

/* ---- Sizes ----
 *
 * The bytes that an object with n seats keeps of the heap: 280 a seat, and what its kind needs besides. The size is the cells of a queue,
 * or of the wait queue of a semaphore. block.h has the bytes that each needs while it opens, in memory of your own. */
#define FAK_C_QUEUE_KEEPS(n, size) (856 + 280 * (size_t)(n) + 24 * (size_t)(size))
/* A queue with n seats and m bundles of `width` seats each. A bundle needs 336 bytes besides those of a seat, and 24 for each of its
 * seats. */
#define FAK_C_BUNDLES_KEEPS(n, m, width, size) \
    (FAK_C_QUEUE_KEEPS((size_t)(n) + (size_t)(m), size) + (size_t)(m) * (336 + 24 * (size_t)(width)))
#define FAK_C_SEM_KEEPS(n, size) (1184 + 280 * (size_t)(n) + 24 * (size_t)(size))
#define FAK_C_ROOM_KEEPS(n) (344 + 280 * (size_t)(n))
#define FAK_C_CREDIT_KEEPS(n) (336 + 280 * (size_t)(n))
#define FAK_C_FILES_KEEPS(n, entries) (336 + 280 * (size_t)(n) + 16 * (size_t)(entries))

/* ---- Every kind of seat ----
 *
 * Each kind has a call that opens an object with a seat for each of the n handles that `seats` points to (1 to 1,024). A seat may
 * make `stint` calls (at least 1, and n times the stint is at most 2^50); a refused call does not count. No call renews a stint: after
 * FAK_C_WORN go on with another seat, or with a new object. A call that opens returns FAK_C_OK, FAK_C_BAD_LIMIT or FAK_C_MEMORY.
 * If n is out of range it neither reads nor clears a handle. If it returns another code than FAK_C_OK for an n in range, all n
 * handles are empty. A seat that a handle held before is given up, also during a call, and then its cell is never used again: pass
 * empty handles. */

/* Gives up the seat, which has no open call, and holds nothing of a room or a file table. The handle is empty then. The last seat to leave
 * frees the object, with the items that are still in it. These are numbers, so the caller frees what they may point to.
 *
 * FAK_C_OK; FAK_C_NO_SEAT; or FAK_C_WRONG_STATE, and the handle keeps its seat: end the call, or give back, first. */
int32_t fak_c_leave(fak_c_seat *seat);

/* Moves the seat of a handle, also during a call, to an empty handle. So open in any array, and move each seat to its thread's or its
 * processor's own data.
 *
 * FAK_C_OK; FAK_C_NO_SEAT; or FAK_C_WRONG_STATE if `to` has a seat. Both handles stay as they were then. */
int32_t fak_c_move(fak_c_seat *seat, fak_c_seat *to);

/* ---- Queues: bounded, first in first out ----
 *
 * An insertion is a claim, which draws a ticket, and tries at the ticket's cell until one returns FAK_C_OK. So is a deletion.
 * fak_c_insert and fak_c_delete make the claim and the first try in one call.
 *
 * FAK_C_FULL and FAK_C_EMPTY count the calls that other seats have begun: a queue with a free cell may be full for a moment,
 * while a seat that claimed beyond the size withdraws. A queue with a cell for each item that there may be is never full.
 *
 * Never sleep on a refusal. A seat that claims an item although there is none takes its claim back by a second step. Between the two
 * its claim hides one item: a thread that inserts an item and then deletes may read FAK_C_EMPTY although that item is there, and so may
 * every other thread. So a thread that tries, announces that it will sleep, tries once more and sleeps may sleep forever although there
 * is an item: the insertion that would wake it is over. The same holds for FAK_C_FULL, of a queue and of a room, and for FAK_C_BUSY. While
 * one thread polled, up to 60 of 100,000 deletions were refused although their item was there, and none in other runs. There are three
 * right ways:
 * - Use the channel of fak_channel.h, whose threads sleep.
 * - Spin or yield, and try again.
 * - Sleep on a semaphore that counts the items: an up after each insertion, a down before each deletion. What it parks are the threads,
 *   so an up hands out the thread to wake. A thread whose down has passed, or that was woken, is owed an item: it tries again until it
 *   reads another code than FAK_C_EMPTY. A second semaphore, which begins at the size, counts the free cells. */

/* The state of a queue's seat, as fak_c_state writes it. */
enum {
    FAK_C_IDLE = 0,      /* no call is open */
    FAK_C_INSERTING = 1, /* an insertion was claimed: fak_c_try_fill is next */
    FAK_C_DELETING = 2   /* a deletion was claimed: fak_c_try_take is next */
};

/* Opens an empty queue of `size` cells (1 to 2^24). The stint counts insertions and deletions together.
 *
 * FAK_C_OK, FAK_C_BAD_LIMIT or FAK_C_MEMORY. */
int32_t fak_c_open(fak_c_seat *seats, size_t n, uint64_t size, uint64_t stint);

/* Claims room for the item, and writes the insertion's ticket: the number of insertions granted before. The seat keeps the
 * item until fak_c_try_fill returns FAK_C_OK. The seat must be idle.
 *
 * FAK_C_OK; FAK_C_WORN, FAK_C_CLOSED or FAK_C_FULL, the first of them that applies, and the item is not taken;
 * FAK_C_NO_SEAT or FAK_C_WRONG_STATE. */
int32_t fak_c_claim_insert(fak_c_seat *seat, uint64_t item, uint64_t *ticket);

/* If it is the turn of the claimed insertion's ticket at its cell, moves the item in and ends the insertion. The seat must be
 * inserting, and is idle after FAK_C_OK.
 *
 * FAK_C_OK; FAK_C_NOT_YET if the item of the round before was not yet taken from the cell; FAK_C_NO_SEAT or
 * FAK_C_WRONG_STATE. */
int32_t fak_c_try_fill(fak_c_seat *seat);

/* Claims an item, and writes the deletion's ticket: the number of deletions granted before. The item is the one that was
 * inserted under the same ticket. The seat must be idle.
 *
 * FAK_C_OK; FAK_C_WORN or FAK_C_EMPTY, the first of them that applies; FAK_C_NO_SEAT or FAK_C_WRONG_STATE. */
int32_t fak_c_claim_delete(fak_c_seat *seat, uint64_t *ticket);

/* If it is the turn of the claimed deletion's ticket at its cell, takes the item out, writes it and ends the deletion. The seat
 * must be deleting, and is idle after FAK_C_OK.
 *
 * FAK_C_OK; FAK_C_NOT_YET if the cell was not yet filled; FAK_C_NO_SEAT or FAK_C_WRONG_STATE. */
int32_t fak_c_try_take(fak_c_seat *seat, uint64_t *item);

/* Claims an insertion and, if the claim is granted, writes the ticket and tries once.
 *
 * FAK_C_OK; FAK_C_NOT_YET with the claim kept for fak_c_try_fill; or a refusal of fak_c_claim_insert. */
int32_t fak_c_insert(fak_c_seat *seat, uint64_t item, uint64_t *ticket);

/* Claims a deletion and, if the claim is granted, writes the ticket and tries once. The item is written if it was taken out.
 *
 * FAK_C_OK; FAK_C_NOT_YET with the claim kept for fak_c_try_take; or a refusal of fak_c_claim_delete. */
int32_t fak_c_delete(fak_c_seat *seat, uint64_t *ticket, uint64_t *item);

/* fak_c_insert and fak_c_delete for callers that need no ticket: the pointer to it may be null.
 *
 * The codes of fak_c_insert and fak_c_delete. */
static inline int32_t fak_c_put(fak_c_seat *seat, uint64_t item, uint64_t *ticket) {
    uint64_t unused = 0;
    return fak_c_insert(seat, item, ticket ? ticket : &unused);
}

static inline int32_t fak_c_get(fak_c_seat *seat, uint64_t *ticket, uint64_t *item) {
    uint64_t unused = 0;
    return fak_c_delete(seat, ticket ? ticket : &unused, item);
}

/* Leaves the queue to others for a while, if the seat has found since its last pause that others use the queue too. Threads that take turns
 * fetch each cache line from one another; while one pauses, another has the lines in its own cache. So call it between two calls if the
 * rate matters more than the longest time of a call, and not in a handler. On average it spins at most once in some 100 tickets, for some
 * tens of microseconds, and waits for nobody. After a long time without pauses a few may come closer together. In queues of fewer than 64
 * cells it does nothing. In the archive by `--backend rattle` it does nothing in any queue: that compiler makes no code for a spin. No
 * other call pauses. The seat may be in any state.
 *
 * FAK_C_OK or FAK_C_NO_SEAT. */
int32_t fak_c_pause(fak_c_seat *seat);

/* Shuts the queue: insertions are refused as FAK_C_CLOSED from now on, and deletions go on. Writes whether the queue was open
 * before. The seat must be idle. Insertions that were claimed before can still end. To drain a queue, shut it, and delete until
 * fak_c_drained writes true.
 *
 * FAK_C_OK; FAK_C_NO_SEAT or FAK_C_WRONG_STATE. */
int32_t fak_c_shut(fak_c_seat *seat, bool *was_open);

/* Writes the state of the seat, the ticket of its open call (if it is idle, no ticket is written), and how many tickets are left
 * of its stint. Changes nothing.
 *
 * FAK_C_OK or FAK_C_NO_SEAT. */
int32_t fak_c_state(fak_c_seat *seat, uint32_t *state, uint64_t *ticket, uint64_t *left);

/* What the queue holds. Each of these loads one count, so it writes what held at one moment of the call; others may have changed it
 * since. None waits, changes the queue's history, or counts against the stint. The seat may be in any state.
 *
 * fak_c_count writes the items that are ready: insertions that have ended, minus the deletions begun and not withdrawn. While no seat
 * has an open call it is the number of items. It is below 0 while deletions are refused; read 0 then.
 *
 * fak_c_in_use writes the cells in use, insertions begun and not withdrawn, minus deletions that have ended, and whether the queue
 * is shut. It is at least 0, and above the size while insertions are refused.
 *
 * fak_c_drained writes whether the queue is shut and has no cell in use. That never changes again, and no deletion finds an item then:
 * a consumer that has read FAK_C_EMPTY stops there. While it is false an item may still come.
 *
 * FAK_C_OK; FAK_C_NO_SEAT, and nothing is written. */
int32_t fak_c_count(fak_c_seat *seat, int64_t *items);
int32_t fak_c_in_use(fak_c_seat *seat, int64_t *cells, bool *is_shut);
int32_t fak_c_drained(fak_c_seat *seat, bool *is_drained);

/* ---- Bursts: several insertions or deletions by one claim ----
 *
 * A bundle is a handle that owns several seats of one queue, which call together. A burst inserts or deletes several items by one claim.
 * A single insertion or deletion that does not wait takes 6 atomic steps. A burst takes 4, and 2 for each item. Use bursts if a thread
 * has several items at a time: a processor, for instance, that fills or drains a cache of pages, packets or buffers.
 *
 * - A burst claims what it finds: as many of its items as there is room for, or as many items as there are, but at most one for each seat
 *   of the bundle. The call writes how many these are. An insertion takes the first items. The others stay with the caller.
 * - The tickets of a burst are consecutive, in the order of its items. Insertions of others come before all of it or after all of it.
 * - In all else a burst is not atomic. Others may take its first items out while its last ones are not yet filled.
 * - Items that a burst has filled can be taken out, at the latest, once it is done or has returned FAK_C_NOT_YET. Cells that it has
 *   emptied have room again at the same time.
 * - A burst fills and empties its cells in the order of its tickets. At a cell whose turn has not come it stays open, with the rest
 *   of its items. Until it is done, others wait for these items and cells, as they do for a claim of a single call.
 * - A burst that claims more than there is takes the rest back by a second step. Between the two it hides as many items, or cells, from
 *   others. They are refused, or find fewer than there are. So never sleep on a refusal here either.
 * - Each thread or processor has a bundle of its own. For handlers a bundle is like a seat: a handler that has its own must not try again
 *   until FAK_C_OK. Or interrupts are off from each claim until the burst is done.
 * - For ThreadSanitizer, FAK_C_GIVES of each item comes before the call that inserts it. FAK_C_GETS comes after the call that took it out.
 *
 * fak_c_leave and fak_c_move work on bundles as on seats. All other calls of a queue return FAK_C_NO_SEAT for a bundle, and the calls
 * below return it for a seat. So open one seat besides to shut the queue, or to count what is in it. */

/* Opens an empty queue of `size` cells (1 to 2^24) with n seats for single calls and m bundles of `width` seats each. n may be 0; then
 * `seats` is not read, but still not null. m and `width` are at least 1, and n + m * width is at most 1,024. A seat may make
 * `stint` calls, and a bundle width * stint, which its seats share. (n + m * width) * stint is at most 2^50.
 *
 * FAK_C_OK, FAK_C_BAD_LIMIT or FAK_C_MEMORY. If n, m or `width` is out of range, no handle is read or cleared. If another code than
 * FAK_C_OK is returned for numbers in range, all n + m handles are empty. */
int32_t fak_c_open_bundles(fak_c_seat *seats, size_t n, fak_c_seat *bundles, size_t m, uint64_t width, uint64_t size, uint64_t stint);

/* Claims room for the first of n items: as many as find it, at most the seats of the bundle, and at most the tickets that are left. Then
 * fills the cells whose turn has come, in the order of the tickets. Writes the first ticket and how many were claimed: items[0] to
 * items[count - 1] are taken. n must be at least 1, and the bundle idle.
 *
 * FAK_C_OK; FAK_C_NOT_YET if the bundle keeps the rest of the items for fak_c_try_fill_burst, and both numbers are written; FAK_C_WORN,
 * FAK_C_CLOSED or FAK_C_FULL, the first of them that applies, and no item is taken; FAK_C_BAD_LIMIT if n is 0; FAK_C_NO_SEAT or
 * FAK_C_WRONG_STATE. The opening makes room for the items on their way, so no burst allocates. */
int32_t fak_c_insert_burst(fak_c_seat *bundle, const uint64_t *items, size_t n, uint64_t *ticket, uint64_t *count);

/* Goes on with a burst of insertions: fills the cells whose turn has come. Writes how many items the bundle still keeps. It must be
 * inserting, and is idle after FAK_C_OK.
 *
 * FAK_C_OK if all are filled, and 0 is written; FAK_C_NOT_YET; FAK_C_NO_SEAT or FAK_C_WRONG_STATE. */
int32_t fak_c_try_fill_burst(fak_c_seat *bundle, uint64_t *left);

/* Claims the oldest items: at most n, the seats of the bundle, and the tickets that are left. Then takes out those whose turn has come, in
 * the order of the tickets. Writes the first ticket, how many were claimed, and how many were taken out, to items[0] to items[taken - 1].
 * The others of the n items are not written; all of them must be initialised. n must be at least 1, and the bundle idle.
 *
 * FAK_C_OK if all that were claimed were taken out; FAK_C_NOT_YET if fak_c_try_take_burst is next, and all three numbers are written;
 * FAK_C_WORN or FAK_C_EMPTY, the first of them that applies; FAK_C_BAD_LIMIT if n is 0; FAK_C_NO_SEAT or FAK_C_WRONG_STATE. */
int32_t fak_c_delete_burst(fak_c_seat *bundle, uint64_t *items, size_t n, uint64_t *ticket, uint64_t *count, uint64_t *taken);

/* Goes on with a burst of deletions: takes out further items whose turn has come, at most n, in the order of the tickets. Writes how many
 * these are, to items[0] to items[taken - 1], and how many of the burst are left. The n items must be initialised. n may be less than are
 * left, and 0. An item that has left its cell and finds no place waits in the bundle for the next call, and its cell has room again. The
 * bundle must be deleting, and is idle after FAK_C_OK.
 *
 * FAK_C_OK if none is left; FAK_C_NOT_YET; FAK_C_NO_SEAT or FAK_C_WRONG_STATE. */
int32_t fak_c_try_take_burst(fak_c_seat *bundle, uint64_t *items, size_t n, uint64_t *taken, uint64_t *left);

/* Writes the state of the bundle (FAK_C_IDLE, FAK_C_INSERTING or FAK_C_DELETING), how many seats it has, and how many tickets are left.
 * Unless it is idle, also the ticket of the first item of its burst that is not in its cell, or not handed out, and how many of these items
 * there are. Changes nothing.
 *
 * FAK_C_OK or FAK_C_NO_SEAT. */
int32_t fak_c_bundle_state(fak_c_seat *bundle, uint32_t *state, uint64_t *ticket, uint64_t *open, uint64_t *width, uint64_t *left);

/* ---- Semaphores: a count, and a queue of the items that wait ----
 *
 * A down subtracts 1, and passes if it found at least 1; else its item is parked in the wait queue. An up adds 1. If it found less
 * than 0, it wakes the oldest parked item, which the caller goes on with. What waits is the item, for instance a thread of a kernel. A
 * down that parks, and an up that wakes, are made by steps: a kernel leaves the thread's stack between fak_c_sem_claim_down and
 * fak_c_sem_try_park. So no stack is still in use when its thread is woken. Once the item is parked another processor may run it: write
 * its state before fak_c_sem_claim_down, and don't touch it after fak_c_sem_try_park's FAK_C_OK. */

/* The state of a semaphore's seat, as fak_c_sem_state writes it. */
enum {
    FAK_C_SEM_IDLE = 0,    /* no call is open */
    FAK_C_SEM_PARKING = 1, /* a down parks its item: fak_c_sem_try_park is next */
    FAK_C_SEM_WAKING = 2   /* an up owes a wake: fak_c_sem_try_wake is next */
};

/* Opens a semaphore that begins at `start` (0 to 2^32), with an empty wait queue of `size` cells (1 to 2^24): at least as many as items
 * may wait at once. With fewer a down tries to park until an up makes room: forever, if the callers of the ups are parking too. The
 * stint counts downs and ups together.
 *
 * FAK_C_OK, FAK_C_BAD_LIMIT or FAK_C_MEMORY. */
int32_t fak_c_sem_open(fak_c_seat *seats, size_t n, uint64_t start, uint64_t size, uint64_t stint);

/* Begins a down. The seat must be idle.
 *
 * FAK_C_OK if it passed, and is done; FAK_C_PARKS if the seat keeps the item, and fak_c_sem_try_park is next; FAK_C_WORN;
 * FAK_C_NO_SEAT or FAK_C_WRONG_STATE. */
int32_t fak_c_sem_claim_down(fak_c_seat *seat, uint64_t item);

/* Takes one more step of a down that parks its item. The seat must be parking, and is idle after FAK_C_OK.
 *
 * FAK_C_OK if the item is parked, and the down is done; FAK_C_NOT_YET if no cell is free, or the cell's last item was not yet taken;
 * FAK_C_NO_SEAT or FAK_C_WRONG_STATE. */
int32_t fak_c_sem_try_park(fak_c_seat *seat);

/* Begins an up. The seat must be idle.
 *
 * FAK_C_OK if it woke no item, and is done; FAK_C_WAKES if it owes a wake, and fak_c_sem_try_wake is next; FAK_C_WORN;
 * FAK_C_NO_SEAT or FAK_C_WRONG_STATE. */
int32_t fak_c_sem_claim_up(fak_c_seat *seat);

/* Takes one more step of an up that owes a wake. The seat must be waking, and is idle after FAK_C_OK.
 *
 * FAK_C_OK with the woken item, and the up is done; FAK_C_NOT_YET if the item to wake is not parked yet; FAK_C_NO_SEAT or
 * FAK_C_WRONG_STATE. */
int32_t fak_c_sem_try_wake(fak_c_seat *seat, uint64_t *item);

/* Writes the state of the seat, and how many calls are left of its stint. Changes nothing.
 *
 * FAK_C_OK or FAK_C_NO_SEAT. */
int32_t fak_c_sem_state(fak_c_seat *seat, uint32_t *state, uint64_t *left);

/* ---- Rooms: a count from 0 to a bound, of which seats claim amounts ---- */

/* Opens a room whose count is 0, with this bound (0 to 2^32). The stint counts granted claims.
 *
 * FAK_C_OK, FAK_C_BAD_LIMIT or FAK_C_MEMORY. */
int32_t fak_c_room_open(fak_c_seat *seats, size_t n, uint64_t bound, uint64_t stint);

/* Claims the amount, 1 to 1,024, if count and amount together are at most the bound. `found` is the count before.
 *
 * FAK_C_OK; FAK_C_WORN, and nothing is written; FAK_C_FULL, and `found` is written too: while other claims are about to be withdrawn, the
 * claim may be refused although it would fit; FAK_C_BAD_LIMIT or FAK_C_NO_SEAT. */
int32_t fak_c_room_tir(fak_c_seat *seat, uint64_t amount, int64_t *found);

/* Gives back the amount, 1 to 1,024 and no more than the seat holds. `found` is the count before.
 *
 * FAK_C_OK; FAK_C_BAD_LIMIT or FAK_C_NO_SEAT, and nothing is written. */
int32_t fak_c_room_release(fak_c_seat *seat, uint64_t amount, int64_t *found);

/* Writes how much the seat holds, and how many claims are left of its stint. Changes nothing.
 *
 * FAK_C_OK or FAK_C_NO_SEAT. */
int32_t fak_c_room_state(fak_c_seat *seat, uint64_t *held, uint64_t *left);

/* ---- Credits: a count that moves by 1, with no bound ---- */

/* Opens a credit that begins at `start` (0 to 2^32). The stint counts debits and credits together.
 *
 * FAK_C_OK, FAK_C_BAD_LIMIT or FAK_C_MEMORY. */
int32_t fak_c_credit_open(fak_c_seat *seats, size_t n, uint64_t start, uint64_t stint);

/* Subtracts 1, or adds 1. `found` is the count before; it may be below 0.
 *
 * FAK_C_OK; FAK_C_WORN or FAK_C_NO_SEAT, and nothing is written. */
int32_t fak_c_credit_debit(fak_c_seat *seat, int64_t *found);
int32_t fak_c_credit_credit(fak_c_seat *seat, int64_t *found);

/* Writes the count, and how many calls are left of the seat's stint.
 *
 * FAK_C_OK or FAK_C_NO_SEAT. */
int32_t fak_c_credit_value(fak_c_seat *seat, int64_t *value, uint64_t *left);

/* ---- File tables: entries that many seats read at once, or one seat writes ---- */

/* What a seat of a file table holds, as fak_c_files_hold writes it. */
enum {
    FAK_C_FILES_NOTHING = 0,
    FAK_C_FILES_READING = 1, /* others may read */
    FAK_C_FILES_WRITING = 2  /* no other seat holds the table */
};

/* Opens a table of `entries` entries (1 to 16), each with two fields, `inode` and `uses`, which are 0. The stint counts holds.
 *
 * FAK_C_OK, FAK_C_BAD_LIMIT or FAK_C_MEMORY. */
int32_t fak_c_files_open(fak_c_seat *seats, size_t n, uint64_t entries, uint64_t stint);

/* Takes a reader's hold, or a writer's, by one attempt. The seat must hold nothing.
 *
 * FAK_C_OK; FAK_C_WORN; FAK_C_BUSY, and `count` is what was left of n: a reader takes 1 of it, and a writer all. With no other code it is
 * written. FAK_C_NO_SEAT or FAK_C_WRONG_STATE. */
int32_t fak_c_files_try_read(fak_c_seat *seat, int64_t *count);
int32_t fak_c_files_try_write(fak_c_seat *seat, int64_t *count);

/* Writes both fields of an entry, as they were when the hold was granted, with what the seat has set since.
 *
 * FAK_C_OK; FAK_C_WRONG_STATE without a hold, or if there is no such entry; FAK_C_NO_SEAT. */
int32_t fak_c_files_get(fak_c_seat *seat, uint64_t entry, uint64_t *inode, uint64_t *uses);

/* Sets a field of an entry.
 *
 * FAK_C_OK; FAK_C_WRONG_STATE without a writer's hold, or if there is no such entry; FAK_C_NO_SEAT. */
int32_t fak_c_files_set_inode(fak_c_seat *seat, uint64_t entry, uint64_t to);
int32_t fak_c_files_set_uses(fak_c_seat *seat, uint64_t entry, uint64_t to);

/* Gives the hold back.
 *
 * FAK_C_OK; FAK_C_WRONG_STATE without a hold; FAK_C_NO_SEAT. */
int32_t fak_c_files_end(fak_c_seat *seat);

/* Writes what the seat holds. Changes nothing.
 *
 * FAK_C_OK or FAK_C_NO_SEAT. */
int32_t fak_c_files_hold(fak_c_seat *seat, uint32_t *hold);

#ifdef __cplusplus
}
#endif

#endif
