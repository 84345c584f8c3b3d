#include "apart.hpp"

#include <cerrno>
#include <cmath>
#include <csignal>
#include <cstdio>
#include <sys/time.h>
#include <sys/wait.h>
#include <unistd.h>

/* Has the system end this process by a signal after a while. */
static void set_the_end(double seconds) {
    itimerval timer{};
    timer.it_value.tv_sec = static_cast<time_t>(seconds);
    timer.it_value.tv_usec = static_cast<suseconds_t>(std::fmod(seconds, 1) * 1e6);
    setitimer(ITIMER_REAL, &timer, nullptr);
}

bool ends_within(double seconds, const std::function<void()> &work) {
    std::fflush(nullptr);
    pid_t child = fork();
    if (child < 0)
        fail("no process could be started");
    if (child == 0) {
        set_the_end(seconds);
        work();
        _exit(0);
    }
    int status = 0;
    while (waitpid(child, &status, 0) < 0 && errno == EINTR) {
    }
    if (WIFSIGNALED(status) && WTERMSIG(status) == SIGALRM)
        return false;
    if (!WIFEXITED(status) || WEXITSTATUS(status) != 0)
        _exit(2); /* it has said why */
    return true;
}
