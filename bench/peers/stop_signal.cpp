#include "stop_signal.hpp"

#include "clock.hpp"

#include <atomic>
#include <cerrno>
#include <csignal>

static std::atomic<double> length{0};
static std::atomic<std::uint64_t> stopped_at{0}; /* 0 if no thread is stopped */

static void sleep_here(int) {
    int error = errno;
    stopped_at.store(ticks());
    sleep_for(length.load());
    stopped_at.store(0);
    errno = error;
}

std::uint64_t begin_stop(pthread_t thread, double milliseconds) {
    struct sigaction action = {};
    action.sa_handler = sleep_here;
    action.sa_flags = SA_RESTART;
    sigaction(SIGUSR1, &action, nullptr);
    length.store(milliseconds);
    pthread_kill(thread, SIGUSR1);
    std::uint64_t begun = 0;
    while ((begun = stopped_at.load()) == 0)
        sleep_for(0.01);
    return begun;
}

void wait_for_end_of_stop() {
    while (stopped_at.load() != 0)
        sleep_for(0.01);
}
