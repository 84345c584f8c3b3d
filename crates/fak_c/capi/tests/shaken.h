/* Included before a source of C whose atomic steps then come late at random, so that threads meet between any two of them. A test that is
 * about one schedule of many finds it soon. */
#ifndef FAK_C_SHAKEN_H
#define FAK_C_SHAKEN_H

#include <sched.h>
#include <stdint.h>

static __thread uint64_t shakes;

static inline void shake(void) {
    if (shakes == 0)
        shakes = (uintptr_t)&shakes;
    shakes = shakes * UINT64_C(6364136223846793005) + UINT64_C(1442695040888963407);
    for (uint64_t rounds = (shakes >> 40) % 8 == 0 ? (shakes >> 50) % 512 : 0; rounds != 0; rounds--)
        __atomic_signal_fence(__ATOMIC_SEQ_CST);
    if ((shakes >> 33) % 16 == 0)
        sched_yield();
}

/* The value of a step, between two shakes. */
#define SHAKEN(step) \
    __extension__({ \
        shake(); \
        __auto_type found_by_the_step = step; \
        shake(); \
        found_by_the_step; \
    })
#define __atomic_load(at, to, order) (shake(), __atomic_load(at, to, order), shake())
#define __atomic_load_n(at, order) SHAKEN(__atomic_load_n(at, order))
#define __atomic_store(at, value, order) (shake(), __atomic_store(at, value, order), shake())
#define __atomic_store_n(at, value, order) (shake(), __atomic_store_n(at, value, order), shake())
#define __atomic_exchange_n(at, value, order) SHAKEN(__atomic_exchange_n(at, value, order))
#define __atomic_fetch_add(at, value, order) SHAKEN(__atomic_fetch_add(at, value, order))
#define __atomic_fetch_sub(at, value, order) SHAKEN(__atomic_fetch_sub(at, value, order))
#define __atomic_fetch_and(at, value, order) SHAKEN(__atomic_fetch_and(at, value, order))
#define __atomic_fetch_or(at, value, order) SHAKEN(__atomic_fetch_or(at, value, order))
#define __atomic_add_fetch(at, value, order) SHAKEN(__atomic_add_fetch(at, value, order))

#endif
