#include "load.hpp"

#include "clock.hpp"

#include <cstdio>
#include <cstdlib>
#include <initializer_list>
#include <sys/resource.h>
#include <unistd.h>

static double seconds() {
    return static_cast<double>(monotonic_clock()) / 1e9;
}

/* The seconds that all processors together were busy since the machine started, or were taken by its host. */
static double busy_seconds() {
    double user = 0, nice = 0, system = 0, idle = 0, waiting = 0, interrupt = 0, soft = 0, stolen = 0;
    std::FILE *file = std::fopen("/proc/stat", "r");
    if (file == nullptr)
        return 0;
    if (std::fscanf(file, "cpu %lf %lf %lf %lf %lf %lf %lf %lf", &user, &nice, &system, &idle, &waiting, &interrupt, &soft,
            &stolen) != 8)
        user = nice = system = interrupt = soft = stolen = 0;
    std::fclose(file);
    return (user + nice + system + interrupt + soft + stolen) / static_cast<double>(sysconf(_SC_CLK_TCK));
}

static double seconds_of(const timeval &time) {
    return static_cast<double>(time.tv_sec) + static_cast<double>(time.tv_usec) / 1e6;
}

/* The seconds that this process and those that it started took. */
static double own_seconds() {
    double sum = 0;
    for (int who : {RUSAGE_SELF, RUSAGE_CHILDREN}) {
        rusage usage{};
        getrusage(who, &usage);
        sum += seconds_of(usage.ru_utime) + seconds_of(usage.ru_stime);
    }
    return sum;
}

static void print_averages(const char *when) {
    double load[3] = {};
    if (getloadavg(load, 3) != 3)
        load[0] = load[1] = load[2] = 0;
    std::printf("load average at the %s: %.2f, %.2f, %.2f\n", when, load[0], load[1], load[2]);
    std::fflush(stdout);
}

Load::Load() : begun(seconds()), busy_before(busy_seconds()), own_before(own_seconds()) {
    std::printf("%ld processors; ", sysconf(_SC_NPROCESSORS_ONLN));
    print_averages("start");
}

void Load::print_end() const {
    double available = (seconds() - begun) * static_cast<double>(sysconf(_SC_NPROCESSORS_ONLN));
    double others = busy_seconds() - busy_before - (own_seconds() - own_before);
    std::printf("other programs took %.0f %% of the processors; ", others <= 0 ? 0 : 100 * others / available);
    print_averages("end");
}
