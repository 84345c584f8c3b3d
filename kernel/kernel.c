/* A small kernel whose lists and semaphores are the library's. It boots on 1 to 8 processors, runs 64 threads, and says what each
 * processor did. README.md says where to begin reading. */
#include "kernel.h"

static uint32_t in_use; /* processors */
static _Atomic uint32_t started, stopped;
static _Atomic bool opened;

/* Takes all free pages, and checks that each is free once. Returns how many there are. */
static uint64_t count_free_pages(void) {
    bool seen[PAGES] = {false};
    uint64_t count = 0;
    for (unsigned char *page; (page = get(&free_pages[0])) != NULL;) {
        size_t i = (size_t)(page - page_frames[0]) / PAGE;
        if (i >= PAGES || seen[i])
            fail("a page that is none, or is free twice:", i);
        seen[i] = true;
        count++;
    }
    return count;
}

/* Checks that the semaphore's count is 0: one more down parks, and what it parked is the only item that waits. */
static void check_is_down(fak_c_seat *seat, const char *what) {
    uint64_t woken = 0;
    if (fak_c_sem_claim_down(seat, THREADS) != FAK_C_PARKS)
        fail(what, 0);
    expect_ok(fak_c_sem_try_park(seat), "try_park at the end");
    if (fak_c_sem_claim_up(seat) != FAK_C_WAKES)
        fail("an up that wakes nobody at the end", 0);
    expect_ok(fak_c_sem_try_wake(seat, &woken), "try_wake at the end");
    if (woken != THREADS)
        fail("another was woken at the end:", woken);
}

/* Takes each semaphore's tokens, and checks that there are as many as at the start. */
static void check_tokens(void) {
    for (int i = 0; i < SEMAPHORES; i++) {
        for (int token = 0; token < TOKENS; token++)
            expect_ok(fak_c_sem_claim_down(&ring[i][0], 0), "a token is lost");
        check_is_down(&ring[i][0], "there is a token too many");
    }
    check_tokens_given();
}

/* Checks that the alarm was raised as often as it was asked for, and that a thread waited for each. */
static void check_alarm(void) {
    if (alarms_left() != 0)
        fail("alarms that were not raised:", alarms_left());
    check_is_down(&alarm_clock.threads[0], "the alarm was raised too often");
}

/* Checks that each thread has stopped as often as its work says, and that each stop was of one kind. */
static void check_work(void) {
    processor_state sum = {0};
    for (uint32_t i = 0; i < in_use; i++) {
        const processor_state *s = &processor_states[i];
        sum.ran += s->ran;
        sum.yields += s->yields;
        sum.parks += s->parks;
        sum.sleeps += s->sleeps;
        sum.ended += s->ended;
        sum.no_page += s->no_page;
        sum.no_frame += s->no_frame;
        sum.raised += s->raised;
        sum.taken += s->taken;
        sum.given += s->given;
    }
    if (sum.ran != sum.yields + sum.parks + sum.sleeps + sum.ended)
        fail("turns that ended in no way:", sum.ran);
    if (sum.yields != THREADS * ROUNDS / 2 + sum.no_page + sum.no_frame)
        fail("yields are missing, or too many:", sum.yields);
    if (sum.sleeps != THREADS * ROUNDS / 4)
        fail("sleeps are missing, or too many:", sum.sleeps);
    if (sum.taken != THREADS * ROUNDS * FRAMES_HELD || sum.given != sum.taken)
        fail("frames were not taken, or not given back:", sum.taken);
    if (sum.raised != THREADS * ROUNDS / 4)
        fail("alarms are missing, or too many:", sum.raised);
}

static void say_counts(uint32_t number) {
    const processor_state *s = &processor_states[number];
    say("processor %u: ran %u, yields %u, parks %u, sleeps %u, ended %u, no page %u, no frame %u, idle %u, not yet %u;", (uint64_t)number,
        s->ran, s->yields, s->parks, s->sleeps, s->ended, s->no_page, s->no_frame, s->idle, s->not_yet);
    say(" ticks %u, in the library %u, raised %u, woke %u, not yet %u;", s->ticks, s->in_library, s->raised, s->woken, s->late);
    say(" frames taken %u, given %u, refilled %u by %u bursts, drained %u by %u, carried %u\n", s->taken, s->given, s->refilled,
        s->refills, s->drained, s->drains, s->carried);
}

/* Prints what was done, once all processors have stopped, and ends the machine. */
static _Noreturn void report(void) {
    uint64_t ended = 0, pages = count_free_pages();
    for (uint32_t i = 0; i < in_use; i++) {
        ended += processor_states[i].ended;
        say_counts(i);
    }
    if (get(&ready.threads[0]) != NULL || get(&sleeping.threads[0]) != NULL)
        fail("a thread that was left", 0);
    check_tokens();
    check_alarm();
    check_work();
    leave_objects(in_use);
    end_carrying(in_use);
    empty_caches(in_use);
    say("all %u page frames are free\n", leave_frames(in_use));
    say("all %u threads ended, pages %u of %u free\n", ended, pages, (uint64_t)PAGES);
    exit_qemu(ended == THREADS && pages == PAGES);
}

/* Each processor begins here, on a stack of its own, with interrupts off. The first opens all objects and starts the others. */
void enter(uint32_t number) {
    set_up(number);
    if (number == 0) {
        in_use = processors();
        if (in_use > PROCESSORS)
            fail("too many processors:", in_use);
        open_objects(in_use);
        open_frames(in_use);
        make_threads();
        /* Other processors use the objects once they read this, so it must follow all openings. */
        atomic_store(&opened, true);
        start_others();
    }
    /* All begin together, once each has added 1. So this must follow the processor's set-up. */
    atomic_fetch_add(&started, 1);
    while (!atomic_load(&opened) || atomic_load(&started) < in_use)
        pause();
    timer_on(TICK_NS);
    interrupts_on();
    run_threads(number);
    timer_off();
    interrupts_off();
    /* The first processor reads the counts of all and gives up their seats, so this must follow the last call and the last tick. */
    atomic_fetch_add(&stopped, 1);
    if (number == 0) {
        while (atomic_load(&stopped) < in_use)
            pause();
        report();
    }
    for (;;)
        halt();
}
