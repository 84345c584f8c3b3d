#include "options.hpp"

#include <algorithm>
#include <cstdio>
#include <cstdlib>

[[noreturn]] static void say_usage() {
    std::fprintf(stderr,
        "usage: throughput|bursts|tails|stops|channels [--smoke] [--rounds 1..1000] [--items 100..10000000]\n"
        "       [--cap SECONDS] [--stops 1..1000] [--stop MILLISECONDS] [--queue PART OF A NAME]\n");
    std::exit(2);
}

static double number_of(const char *word, double least, double most) {
    char *end = nullptr;
    double number = std::strtod(word, &end);
    if (end == word || *end != '\0' || !(number >= least && number <= most))
        say_usage();
    return number;
}

/* Takes one option with its value. */
static void take(Options &options, const std::string &name, const char *value) {
    if (name == "--rounds")
        options.rounds = static_cast<unsigned>(number_of(value, 1, 1000));
    else if (name == "--items")
        options.items = static_cast<std::uint64_t>(number_of(value, 100, 1e7));
    else if (name == "--cap")
        options.cap = number_of(value, 0.1, 3600);
    else if (name == "--stops")
        options.stops = static_cast<unsigned>(number_of(value, 1, 1000));
    else if (name == "--stop")
        options.stop = number_of(value, 1, 10'000);
    else if (name == "--queue")
        options.queue = value;
    else
        say_usage();
}

/* One short round, which shows the form of the tables and no figure that counts. */
static void make_short(Options &options) {
    options.rounds = 1;
    options.items = 1000;
    options.cap = 0.5;
    options.stops = 2;
    options.stop = 5;
}

Options options_of(int count, char **words) {
    Options options;
    if (count < 2)
        say_usage();
    options.measure = words[1];
    for (int i = 2; i < count; i++) {
        std::string name = words[i];
        if (name == "--smoke")
            make_short(options);
        else if (i + 1 < count)
            take(options, name, words[++i]);
        else
            say_usage();
    }
    return options;
}

std::vector<Implementation> chosen(const Options &options) {
    std::vector<Implementation> found;
    for (const Implementation &implementation : implementations())
        if (implementation.name.find(options.queue) != std::string::npos)
            found.push_back(implementation);
    return found;
}

std::vector<Implementation> chosen_in_round(const Options &options, unsigned round) {
    std::vector<Implementation> found = chosen(options);
    if (!found.empty())
        std::rotate(found.begin(), found.begin() + static_cast<std::ptrdiff_t>(round % found.size()), found.end());
    return found;
}
