/* Semaphores by steps. What waits in a semaphore is the thread itself.
 *
 * A down that finds no token stays open while the thread leaves its stack: its processor's seat keeps the thread. Only then does
 * the processor park it (park). Else another processor could wake the thread, and run it on a stack that is still in use. */
#include "kernel.h"

void down(fak_c_seat *of_processors, thread *me) {
    uint64_t flags = shield();
    fak_c_seat *seat = &of_processors[processor()];
    int32_t code = fak_c_sem_claim_down(seat, (uintptr_t)me);
    if (code == FAK_C_PARKS) {
        linger();
        me->parks_in = seat;
        stop(me, PARK);
    } else {
        expect_ok(code, "claim_down");
    }
    unshield(flags);
}

/* Ends the down of a thread that has stopped. Once it is parked it may run elsewhere, so nothing of it may be read after that. */
void park(thread *stopped) {
    fak_c_seat *seat = stopped->parks_in;
    int32_t code;
    while ((code = fak_c_sem_try_park(seat)) == FAK_C_NOT_YET) {
        this_processor()->not_yet++;
        pause();
    }
    expect_ok(code, "try_park");
}

/* The thread to wake may still be on its way into the semaphore. Then the up tries again until the thread is parked. */
void up(fak_c_seat *of_processors) {
    uint64_t flags = shield(), woken = 0;
    fak_c_seat *seat = &of_processors[processor()];
    int32_t code = fak_c_sem_claim_up(seat);
    if (code == FAK_C_WAKES) {
        linger();
        while ((code = fak_c_sem_try_wake(seat, &woken)) == FAK_C_NOT_YET) {
            this_processor()->not_yet++;
            pause();
        }
        expect_ok(code, "try_wake");
        put(&ready.threads[processor()], (void *)(uintptr_t)woken);
    } else {
        expect_ok(code, "claim_up");
    }
    unshield(flags);
}
