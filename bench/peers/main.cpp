/* Measures this library's queue and channel and their peers: the words are one measure and its options. */
#include "clock.hpp"
#include "load.hpp"
#include "measures.hpp"

#include <cstdio>

/* False if there is no measure of this name. */
static bool make_measure(const Options &options) {
    if (options.measure == "throughput") {
        measure_throughput(options);
    } else if (options.measure == "bursts") {
        measure_bursts(options);
    } else if (options.measure == "tails") {
        measure_tails(options);
    } else if (options.measure == "stops") {
        measure_fairness(options);
        measure_stops(options);
    } else if (options.measure == "channels") {
        measure_channels(options);
    } else {
        return false;
    }
    return true;
}

int main(int count, char **words) {
    Options options = options_of(count, words);
    nanoseconds_of_tick(); /* the clock is calibrated before any thread starts */
    std::printf("Medians of %u rounds (best to worst); %llu items of each producer.\n", options.rounds,
        static_cast<unsigned long long>(options.items));
    Load load;
    if (!make_measure(options)) {
        std::fprintf(stderr, "no such measure: %s\n", options.measure.c_str());
        return 2;
    }
    std::printf("\n");
    load.print_end();
    return 0;
}
