/* Threads, which are not preempted, and the loop of each processor that runs them.
 *
 * A thread that stops says what becomes of it, and goes back to its processor's stack. Only there is it put into a list or a semaphore.
 * When a processor takes it out, its stack is free to use. */
#include "kernel.h"

processor_state processor_states[PROCESSORS];
static thread threads[THREADS];
static _Atomic uint64_t live = THREADS;

/* A thread begins here, on its own stack. */
static void begin(void) {
    thread *me = this_processor()->runs;
    interrupts_on();
    work(me);
    stop(me, END);
}

void make_threads(void) {
    for (uint64_t number = 0; number < THREADS; number++) {
        thread *made = &threads[number];
        void **top = (void **)(made->stack + STACK) - 2; /* begin's address lies at a multiple of 16 */
        *top = (void *)begin;
        made->stack_at = top - 6; /* swap takes six registers off it */
        made->number = number;
        put(&ready.threads[0], made);
    }
}

bool threads_live(void) {
    return atomic_load(&live) > 0;
}

/* Ends the thread's turn on its processor. It comes back here when it runs again, maybe on another one. */
void stop(thread *me, enum wish wish) {
    uint64_t flags = shield();
    me->wish = wish;
    swap(&me->stack_at, this_processor()->stack_at);
    unshield(flags);
}

/* Gives the thread what it wished for, now that its stack was left. It may run elsewhere from then on. */
static void grant(thread *stopped, uint32_t number) {
    processor_state *state = &processor_states[number];
    switch (stopped->wish) {
    case YIELD:
        state->yields++;
        put(&ready.threads[number], stopped);
        break;
    case SLEEP:
        state->sleeps++;
        put(&sleeping.threads[number], stopped);
        break;
    case PARK:
        state->parks++;
        park(stopped);
        break;
    case END:
        state->ended++;
        /* Processors stop once this is 0. It must follow the switch to this stack: a thread that is counted out runs no more. */
        atomic_fetch_sub(&live, 1);
        break;
    }
}

/* Runs ready threads until all have ended. */
void run_threads(uint32_t number) {
    processor_state *state = &processor_states[number];
    shield();
    while (threads_live()) {
        thread *next = get(&ready.threads[number]);
        if (next == NULL) {
            state->idle++;
            halt_until_interrupt(); /* the next tick comes soon */
            shield();
            continue;
        }
        state->runs = next;
        state->ran++;
        swap(&state->stack_at, next->stack_at);
        grant(next, number);
    }
}
