/* What the parts of the kernel share. */
#ifndef KERNEL_H
#define KERNEL_H

#include "fak_c.h"
#include "machine.h"

enum {
    THREADS = 64,
    ROUNDS = 500,     /* of each thread's work; in one of 4 it sleeps, in one it waits for the alarm */
    PAGES = 24,
    PAGE = 4096,
    FRAMES_HELD = 3,  /* page frames that a thread holds in each round */
    BURST = 16,       /* page frames that go between the list and a processor's cache at once */
    SEMAPHORES = 16,  /* in the ring of the workload */
    TOKENS = 2,       /* of each semaphore of the ring */
    STACK = 8192,
    TICK_NS = 250000,
    MOST_WOKEN = 8    /* threads that one tick makes ready, at most */
};

/* ---- Objects (objects.c): each is its seats. ---- */

/* A processor has a seat of each object, which the thread that runs on it uses. A list and the alarm have a second half: the seats of the
 * processors' timer handlers. */
typedef struct {
    fak_c_seat threads[PROCESSORS];
    fak_c_seat handlers[PROCESSORS];
} shared_object;

extern shared_object ready, sleeping, alarm_clock;
extern fak_c_seat free_pages[PROCESSORS];
extern fak_c_seat ring[SEMAPHORES][PROCESSORS];
extern unsigned char page_frames[PAGES][PAGE];

void open_objects(uint32_t processors);
void leave_objects(uint32_t processors);

/* ---- Page frames (frames.c): all memory that nothing else uses. Each processor has a bundle of their list. ----
 *
 * With FEW_FRAMES the list has only this many, fewer than the threads and the caches hold at most. So it is often empty, and threads wait
 * for a frame. Each processor's handler then carries frames too (carriers.c), by a seat of its own. */

#ifndef FEW_FRAMES
#define FEW_FRAMES 0
#endif

extern fak_c_seat frame_bundles[PROCESSORS], frame_carriers[PROCESSORS];

void open_frames(uint32_t processors);
uint64_t leave_frames(uint32_t processors); /* returns how many there are; each is in the list */
void carry_frame(uint32_t number);
void end_carrying(uint32_t processors);

/* ---- The cache of page frames that each processor has (frame_cache.c) ---- */

void *take_frame(void); /* NULL if there is none */
void give_frame(void *frame);
void empty_caches(uint32_t processors);

/* ---- Threads (threads.c) ---- */

enum wish { YIELD, SLEEP, PARK, END };

typedef struct thread {
    void *stack_at;
    enum wish wish;       /* what becomes of it once its stack was left */
    fak_c_seat *parks_in; /* with PARK: the processor's seat of the semaphore, whose call is open */
    uint64_t number;
    unsigned char stack[STACK] __attribute__((aligned(16)));
} thread;

void make_threads(void);
bool threads_live(void);
void stop(thread *me, enum wish wish);
void run_threads(uint32_t number);

/* ---- What each processor counts ---- */

typedef struct {
    void *stack_at; /* of the processor itself, while a thread runs */
    thread *runs;
    uint64_t ran, yields, parks, sleeps, ended, idle; /* threads.c */
    uint64_t no_page, no_frame, not_yet;              /* work.c, lists.c and semaphores.c */
    uint64_t taken, given, refills, refilled, drains, drained; /* frame_cache.c: frames, and bursts with their frames */
    uint64_t ticks, in_library, woken, raised, late;  /* timer.c */
    uint64_t carried;                                 /* carriers.c */
} processor_state;

extern processor_state processor_states[PROCESSORS];
static inline processor_state *this_processor(void) { return &processor_states[processor()]; }

/* ---- Lists (lists.c): queues of pointers, with a cell for each ---- */

void put(fak_c_seat *seat, void *item);
void *get(fak_c_seat *seat); /* NULL if there is none */
void put_all(fak_c_seat *bundle, const uint64_t *items, uint64_t n);
uint64_t get_some(fak_c_seat *bundle, uint64_t *items, uint64_t n); /* at most n; returns how many */

/* ---- Semaphores (semaphores.c) ---- */

void down(fak_c_seat *of_processors, thread *me);
void park(thread *stopped);
void up(fak_c_seat *of_processors);

/* ---- The timer (timer.c) ---- */

void ask_for_alarm(void);   /* some tick raises the alarm once */
uint64_t alarms_left(void); /* asked for, and not yet raised */

/* ---- Work (work.c): the threads' program. ---- */

void work(thread *me);
void check_tokens_given(void);

/* ---- The two variants of interrupts ----
 *
 * Open: interrupts stay on in every call. The timer's handler has seats of its own, and never waits.
 * SHIELDED: interrupts are off from each claim to the end of its call. The handler may use its processor's seats, and wait.
 *
 * Two variants fail, to show that the rules are needed. With SAME_SEAT the handler of the open variant uses its processor's seats. With
 * HANDLER_WAITS it waits. */
#ifdef SHIELDED
static inline uint64_t shield(void) { return irq_save(); }
static inline void unshield(uint64_t flags) { irq_restore(flags); }
#define SAME_SEAT
#define HANDLER_WAITS
#else
static inline uint64_t shield(void) { return 0; }
static inline void unshield(uint64_t flags) { (void)flags; }
#endif

/* Called between a claim and its end. GAP makes some of these moments long, so that interrupts come in them. */
static inline void linger(void) {
#ifdef GAP
    static _Atomic unsigned calls;
    if (atomic_fetch_add(&calls, 1) % 64 == 0)
        for (int i = 0; i < GAP; i++)
            __asm__ volatile("");
#endif
}

/* Stops the machine if a call was refused that can't be. */
static inline void expect_ok(int32_t code, const char *what) {
    if (code != FAK_C_OK)
        fail(what, (uint64_t)code);
}

#endif
