#include "clock.hpp"

#include <algorithm>
#include <cerrno>

static double calibrate() {
    constexpr std::uint64_t window = 200'000'000;
    std::uint64_t clock_begun = monotonic_clock(), ticks_begun = ticks(), passed = 0;
    while (passed < window)
        passed = monotonic_clock() - clock_begun;
    return static_cast<double>(passed) / static_cast<double>(ticks() - ticks_begun);
}

double nanoseconds_of_tick() {
    static const double length = calibrate();
    return length;
}

double nanoseconds_of_reading() {
    std::uint64_t least = UINT64_MAX;
    for (int i = 0; i < 10'000; i++) {
        std::uint64_t begun = ticks();
        least = std::min(least, ticks() - begun);
    }
    return static_cast<double>(least) * nanoseconds_of_tick();
}

void sleep_for(double milliseconds) {
    auto nanoseconds = static_cast<std::uint64_t>(milliseconds * 1e6);
    timespec left{static_cast<time_t>(nanoseconds / 1'000'000'000), static_cast<long>(nanoseconds % 1'000'000'000)};
    while (nanosleep(&left, &left) != 0 && errno == EINTR) {
    }
}
