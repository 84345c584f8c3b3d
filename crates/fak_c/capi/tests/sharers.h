/* How threads of a test share a semaphore. The item of a thread is its number, and each thread has a flag that wakes it. */
#ifndef FAK_C_SHARERS_H
#define FAK_C_SHARERS_H

#include "tests.h"

#include <sched.h>
#include <stdatomic.h>

/* Makes a down with the thread's number as its item. If it parks, waits until the thread that wakes it sets its flag. */
static inline void down(fak_c_seat *seat, uint64_t me, atomic_int *is_woken) {
    int32_t code = fak_c_sem_claim_down(seat, me);
    if (code == FAK_C_OK)
        return;
    CHECK(code == FAK_C_PARKS);
    while ((code = fak_c_sem_try_park(seat)) == FAK_C_NOT_YET)
        sched_yield();
    CHECK(code == FAK_C_OK);
    while (!atomic_exchange(&is_woken[me], 0))
        sched_yield();
}

/* Makes an up. If it wakes one of the threads, sets its flag. */
static inline void up(fak_c_seat *seat, atomic_int *is_woken, uint64_t threads) {
    uint64_t woken = 0;
    int32_t code = fak_c_sem_claim_up(seat);
    if (code == FAK_C_OK)
        return;
    CHECK(code == FAK_C_WAKES);
    while ((code = fak_c_sem_try_wake(seat, &woken)) == FAK_C_NOT_YET)
        sched_yield();
    CHECK(code == FAK_C_OK && woken < threads);
    atomic_store(&is_woken[woken], 1);
}

#endif
