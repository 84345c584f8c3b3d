/* What an item costs by bursts, and how long one burst takes, compared with single calls of the same run. */
#include "apart.hpp"
#include "clock.hpp"
#include "items.hpp"
#include "measures.hpp"
#include "table.hpp"
#include "team.hpp"
#include "times.hpp"

#include <algorithm>
#include <array>
#include <sched.h>

namespace {
constexpr unsigned cells = 1024, most_items = 32;

/* How many items a call takes: a burst of this many, or one item by a single call. */
struct Way {
    std::string name;
    unsigned width;
    bool is_single;
};

const std::vector<Way> ways{
    {"single calls", 1, true}, {"bursts of 1", 1, false}, {"of 4", 4, false}, {"of 8", 8, false}, {"of 32", 32, false}};
const std::vector<Way> timed_ways{{"single call", 1, true}, {"burst of 8", 8, false}, {"burst of 32", 32, false}};

using Items = std::array<std::uint64_t, most_items>;

/* The calls of a queue by one of these ways. A queue that has no bursts puts and gets the items of a burst one by one. */
class Caller {
public:
    Caller(const Implementation &implementation, const Way &chosen, unsigned threads) : way(chosen) {
        bool has_bursts = !way.is_single && implementation.open_for_bursts;
        queue = has_bursts ? implementation.open_for_bursts(cells, threads, way.width) : implementation.open(cells, threads);
        bursts = way.is_single ? nullptr : dynamic_cast<Bursts *>(queue.get());
    }

    /* Puts the first of these items, as many as there is room for. Returns how many. */
    unsigned put(unsigned thread, const Items &items, unsigned count) {
        if (bursts != nullptr)
            return bursts->put_burst(thread, items.data(), count);
        unsigned done = 0;
        while (done < count && queue->put(thread, items[done]))
            done++;
        return done;
    }

    /* Gets at most `count` items. Returns how many. */
    unsigned get(unsigned thread, Items &items, unsigned count) {
        if (bursts != nullptr)
            return bursts->get_burst(thread, items.data(), count);
        unsigned done = 0;
        while (done < count && queue->get(thread, items[done]))
            done++;
        return done;
    }

    unsigned width() const { return way.width; }

private:
    Way way;
    std::unique_ptr<Queue> queue;
    Bursts *bursts;
};

/* Fills the array with the producer's items from this number on. Returns how many there are, since no more than `each` are put. */
unsigned fill(Items &items, unsigned producer, std::uint64_t number, std::uint64_t each, unsigned width) {
    auto count = static_cast<unsigned>(std::min<std::uint64_t>(width, each - number));
    for (unsigned i = 0; i < count; i++)
        items[i] = item_of(producer, number + i);
    return count;
}

/* Puts and gets this many items, a burst at a time. */
void pass_alone(Caller &caller, std::uint64_t each) {
    Items items{}, found{};
    for (std::uint64_t number = 0; number < each; number += caller.width()) {
        unsigned count = fill(items, 0, number, each, caller.width());
        if (caller.put(0, items, count) != count || caller.get(0, found, count) != count
            || !std::equal(&items[0], &items[count], &found[0]))
            fail("a queue that one thread uses refused, or lost an item");
    }
}

/* Each call that put or got an item is noted by its time. */
template <class Note> void put_all(Caller &caller, unsigned thread, std::uint64_t each, Note note) {
    Items items{};
    for (std::uint64_t number = 0; number < each;) {
        unsigned count = fill(items, thread, number, each, caller.width());
        std::uint64_t begun = note.begin();
        unsigned done = caller.put(thread, items, count);
        note.end(begun, done);
        number += done;
        if (done == 0)
            sched_yield();
    }
}

template <class Note> void get_all(Caller &caller, unsigned thread, std::uint64_t each, Received &received, Note note) {
    Received mine;
    Items items{};
    while (mine.count < each) {
        auto most = static_cast<unsigned>(std::min<std::uint64_t>(caller.width(), each - mine.count));
        std::uint64_t begun = note.begin();
        unsigned done = caller.get(thread, items, most);
        note.end(begun, done);
        for (unsigned i = 0; i < done; i++)
            mine.add(items[i]);
        if (done == 0)
            sched_yield();
    }
    received = mine;
}

/* Nothing is noted. */
struct NoNote {
    std::uint64_t begin() const { return 0; }
    void end(std::uint64_t, unsigned) const {}
};

struct TimeNote {
    Times *times;

    std::uint64_t begin() const { return ticks(); }
    void end(std::uint64_t begun, unsigned done) const {
        std::uint64_t took = ticks() - begun;
        if (done > 0)
            times->add(took);
    }
};

/* Has each cell used once. */
void warm(Caller &caller) {
    pass_alone(caller, cells);
}

double cost_alone(const Implementation &implementation, const Way &way, std::uint64_t items) {
    Caller caller(implementation, way, 1);
    warm(caller);
    return run_team(1, [&](unsigned) { pass_alone(caller, items); }) / static_cast<double>(items);
}

/* This many pairs pass the items of each producer. Returns what an item cost. `note` creates the note of a thread. */
template <class NoteOf>
double cost_of_pairs(
    const Implementation &implementation, const Way &way, unsigned pairs, std::uint64_t each, NoteOf note_of) {
    Caller caller(implementation, way, 2 * pairs);
    std::vector<Received> received(pairs);
    warm(caller);
    double took = run_team(2 * pairs, [&](unsigned thread) {
        if (thread < pairs)
            put_all(caller, thread, each, note_of(thread));
        else
            get_all(caller, thread, each, received[thread - pairs], note_of(thread));
    });
    must_be_whole(received, std::vector<std::uint64_t>(pairs, each));
    return took / static_cast<double>(pairs * each);
}

/* What an item costs one thread, if there are no pairs, or this many pairs. */
double cost_of(const Implementation &implementation, const Way &way, unsigned pairs, std::uint64_t items) {
    if (pairs == 0)
        return cost_alone(implementation, way, 4 * items);
    return cost_of_pairs(implementation, way, pairs, items, [](unsigned) { return NoNote(); });
}

std::string text_of(unsigned pairs) {
    return pairs == 0 ? "one thread" : std::to_string(pairs) + (pairs == 1 ? " pair" : " pairs");
}

void measure_costs(const Options &options, unsigned pairs) {
    std::vector<Column> columns;
    for (const Way &way : ways)
        columns.push_back({way.name});
    Table table("Nanoseconds for an item put and got: " + text_of(pairs) + ", 1,024 cells", columns);
    for (const Implementation &implementation : chosen(options))
        table.add_row(implementation.name);
    for (unsigned round = 0; round < options.rounds; round++) {
        for (const Way &way : ways) {
            for (const Implementation &implementation : chosen_in_round(options, round)) {
                Shared<double> cost;
                bool is_over = ends_within(options.cap, [&] { *cost = cost_of(implementation, way, pairs, options.items); });
                table.add(implementation.name, {way.name}, is_over ? *cost : standstill);
            }
        }
    }
    table.print();
}

const std::vector<Column> time_columns{{"median"}, {"99 %"}, {"99.9 %"}, {"worst"}};
using Figures = std::array<double, 4>;

/* The times of the puts and of the gets of one run. */
struct Outcome {
    Figures puts, gets;
};

Figures figures_of(const std::vector<Times> &all, unsigned begin, unsigned end) {
    Times sum;
    for (unsigned i = begin; i < end; i++)
        sum.add(all[i]);
    double tick = nanoseconds_of_tick();
    auto at = [&](double share) { return static_cast<double>(sum.at(share)) * tick; };
    return {at(0.5), at(0.99), at(0.999), static_cast<double>(sum.worst()) * tick};
}

void run_timed(const Implementation &implementation, const Way &way, unsigned pairs, std::uint64_t each, Outcome &outcome) {
    std::vector<Times> times(2 * pairs);
    cost_of_pairs(implementation, way, pairs, each, [&](unsigned thread) { return TimeNote{&times[thread]}; });
    outcome.puts = figures_of(times, 0, pairs);
    outcome.gets = figures_of(times, pairs, 2 * pairs);
}

void add_figures(Table &table, const std::string &row, bool is_over, const Figures &figures) {
    for (unsigned i = 0; i < time_columns.size(); i++)
        table.add(row, time_columns[i], is_over ? figures[i] : standstill);
}

void measure_times(const Options &options, const Way &way, unsigned pairs) {
    Table table("Nanoseconds of one " + way.name + ": " + text_of(pairs) + ", 1,024 cells", time_columns);
    for (const Implementation &implementation : chosen(options))
        for (const char *call : {": put", ": get"})
            table.add_row(implementation.name + call);
    for (unsigned round = 0; round < options.rounds; round++) {
        for (const Implementation &implementation : chosen_in_round(options, round)) {
            Shared<Outcome> outcome;
            bool is_over = ends_within(options.cap, [&] { run_timed(implementation, way, pairs, options.items, *outcome); });
            add_figures(table, implementation.name + ": put", is_over, outcome->puts);
            add_figures(table, implementation.name + ": get", is_over, outcome->gets);
        }
    }
    table.print();
}
}

void measure_bursts(const Options &options) {
    for (unsigned pairs : {0u, 1u, 2u, 4u})
        measure_costs(options, pairs);
    for (const Way &way : timed_ways)
        for (unsigned pairs : {1u, 2u, 4u})
            measure_times(options, way, pairs);
}
