/* What the command line asks for. */
#pragma once

#include "queue.hpp"

#include <cstdint>
#include <string>

struct Options {
    std::string measure; /* throughput, bursts, tails, stops or channels */
    unsigned rounds = 5;
    std::uint64_t items = 100'000; /* of each producer */
    double cap = 10;               /* seconds that a run may take */
    unsigned stops = 20;           /* by a signal, in a run */
    double stop = 100;             /* milliseconds that a stop lasts */
    std::string queue;             /* a part of the names of the queues or channels to measure */
};

/* Ends the program with the usage if a word is not understood. */
Options options_of(int count, char **words);

/* The implementations that the options ask for. */
std::vector<Implementation> chosen(const Options &options);

/* The same, beginning with another one in each round. */
std::vector<Implementation> chosen_in_round(const Options &options, unsigned round);
