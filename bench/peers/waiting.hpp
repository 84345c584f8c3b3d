/* What a thread does until it can go on. */
#pragma once

#include <sched.h>

#if defined(__x86_64__)
#include <immintrin.h>
inline void pause_once() {
    _mm_pause();
}
#elif defined(__aarch64__)
inline void pause_once() {
    __asm__ volatile("yield");
}
#else
inline void pause_once() {}
#endif

/* Pauses a number of times, and then yields the processor each time. */
class Patience {
public:
    explicit Patience(unsigned pauses) : pauses_left(pauses) {}

    void wait() {
        if (pauses_left == 0) {
            sched_yield();
        } else {
            pauses_left--;
            pause_once();
        }
    }

private:
    unsigned pauses_left;
};
