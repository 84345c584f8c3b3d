/* One clock for all that is timed: the time stamp counter on x86-64, and the monotonic clock elsewhere. */
#pragma once

#include <cstdint>
#include <ctime>

#if defined(__x86_64__)
#include <x86intrin.h>
#endif

/* Nanoseconds of the monotonic clock. */
inline std::uint64_t monotonic_clock() {
    timespec time{};
    clock_gettime(CLOCK_MONOTONIC, &time);
    return static_cast<std::uint64_t>(time.tv_sec) * 1'000'000'000 + static_cast<std::uint64_t>(time.tv_nsec);
}

inline std::uint64_t ticks() {
#if defined(__x86_64__)
    return __rdtsc();
#else
    return monotonic_clock();
#endif
}

/* How long a tick is. The first call takes a fifth of a second, so it comes before any thread starts. */
double nanoseconds_of_tick();

/* What a reading of the clock takes in nanoseconds, at the best. */
double nanoseconds_of_reading();

void sleep_for(double milliseconds);
