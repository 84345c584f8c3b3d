/* The timer's handler makes threads ready: those that sleep, and those that wait for the alarm, which it raises as often as it was
 * asked for.
 *
 * In the open variant the call that the tick interrupted may be the one that the handler's own ticket waits for. So the handler must not
 * wait: if a step returns NOT_YET, it leaves its call open and goes on at the next tick. */
#include "kernel.h"

/* What a handler has begun. */
typedef struct {
    enum { NOTHING, TAKE_SLEEPER, WAKE_WAITER, MAKE_READY } step;
    uint64_t found; /* the thread, with MAKE_READY */
} handler_state;

static handler_state handler_states[PROCESSORS];
static _Atomic uint64_t alarms; /* asked for, and not yet raised */
extern const unsigned char library_start[], library_end[];

#ifdef SAME_SEAT
static fak_c_seat *seat_of(shared_object *object, uint32_t number) { return &object->threads[number]; }
#else
static fak_c_seat *seat_of(shared_object *object, uint32_t number) { return &object->handlers[number]; }
#endif

/* The add must come before the caller's down on the alarm. If it came after, the down could wait for an alarm that nobody raises. */
void ask_for_alarm(void) {
    atomic_fetch_add(&alarms, 1);
}

uint64_t alarms_left(void) {
    return atomic_load(&alarms);
}

/* Takes one of the alarms that were asked for, if there is one. The exchange keeps two handlers from taking the same one. It must come
 * before the handler's up: each alarm is raised once. */
static bool take_alarm(void) {
    uint64_t asked = atomic_load(&alarms);
    while (asked > 0)
        if (atomic_compare_exchange_weak(&alarms, &asked, asked - 1))
            return true;
    return false;
}

/* Begins to raise the alarm, or to take a sleeper. False if there is nothing to do. */
static bool begin_step(handler_state *handler, uint32_t number) {
    uint64_t ticket = 0;
    int32_t code;
    if (take_alarm()) {
        processor_states[number].raised++;
        code = fak_c_sem_claim_up(seat_of(&alarm_clock, number));
        if (code == FAK_C_WAKES) {
            handler->step = WAKE_WAITER;
            return true;
        }
        expect_ok(code, "the handler's claim_up");
        /* The thread that asked has not made its down yet, and will pass. */
    }
    code = fak_c_claim_delete(seat_of(&sleeping, number), &ticket);
    if (code == FAK_C_EMPTY)
        return false;
    expect_ok(code, "the handler's claim_delete");
    handler->step = TAKE_SLEEPER;
    return true;
}

/* Tries the handler's step once. */
static int32_t try_step(handler_state *handler, uint32_t number) {
    switch (handler->step) {
    case TAKE_SLEEPER:
        return fak_c_try_take(seat_of(&sleeping, number), &handler->found);
    case WAKE_WAITER:
        return fak_c_sem_try_wake(seat_of(&alarm_clock, number), &handler->found);
    default:
        return fak_c_try_fill(seat_of(&ready, number));
    }
}

/* Tries the step, and again until it is done if the handler may wait. Returns whether it is done. */
static bool finish_step(handler_state *handler, uint32_t number) {
    int32_t code;
    uint64_t tried = 0;
    while ((code = try_step(handler, number)) == FAK_C_NOT_YET) {
        processor_states[number].late++;
#ifdef HANDLER_WAITS
        if (++tried == 20000000)
            fail("the handler has tried too often:", tried);
#else
        return false;
#endif
    }
    (void)tried;
    expect_ok(code, "the handler's try");
    return true;
}

/* Makes one thread ready, or goes as far as it can now. Returns whether the thread is ready. */
static bool make_ready(handler_state *handler, uint32_t number) {
    uint64_t ticket = 0;
    if (handler->step == NOTHING && !begin_step(handler, number))
        return false;
    if (handler->step != MAKE_READY) {
        if (!finish_step(handler, number))
            return false;
        expect_ok(fak_c_claim_insert(seat_of(&ready, number), handler->found, &ticket), "the handler's claim_insert");
        handler->step = MAKE_READY;
    }
    if (!finish_step(handler, number))
        return false;
    handler->step = NOTHING;
    processor_states[number].woken++;
    return true;
}

void tick(uint64_t instruction) {
    uint32_t number = processor();
    end_of_interrupt();
    processor_states[number].ticks++;
    processor_states[number].in_library += instruction >= (uintptr_t)library_start && instruction < (uintptr_t)library_end;
    if (FEW_FRAMES > 0)
        carry_frame(number);
    for (int woken = 0; woken < MOST_WOKEN && make_ready(&handler_states[number], number);)
        woken++;
}
