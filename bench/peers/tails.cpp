/* How long single calls take. A call that found no room or no item is not counted. */
#include "apart.hpp"
#include "clock.hpp"
#include "items.hpp"
#include "measures.hpp"
#include "table.hpp"
#include "team.hpp"
#include "times.hpp"

#include <cstdio>
#include <sched.h>

namespace {
struct Figures {
    double median = 0, of_a_hundred = 0, of_a_thousand = 0, worst = 0;
};

/* The calls that one run times: whole puts and gets, or the halves of both. */
struct Outcome {
    Figures puts, gets, put_claims, fills, get_claims, takes;
};

/* What one thread timed: of a whole call only the first is used. */
struct alignas(128) Timed {
    Times first, second;
};

struct Setting {
    unsigned pairs, cells;
    std::uint64_t each;
};

Figures figures_of(const Times &times) {
    double tick = nanoseconds_of_tick();
    auto at = [&](double share) { return static_cast<double>(times.at(share)) * tick; };
    return {at(0.5), at(0.99), at(0.999), static_cast<double>(times.worst()) * tick};
}

void put_timed(Queue &queue, unsigned thread, std::uint64_t each, Times &times) {
    for (std::uint64_t i = 0; i < each;) {
        std::uint64_t begun = ticks();
        bool done = queue.put(thread, item_of(thread, i));
        std::uint64_t took = ticks() - begun;
        if (done) {
            times.add(took);
            i++;
        } else {
            sched_yield();
        }
    }
}

void get_timed(Queue &queue, unsigned thread, std::uint64_t each, Times &times, Received &received) {
    while (received.count < each) {
        std::uint64_t item = 0, begun = ticks();
        bool done = queue.get(thread, item);
        std::uint64_t took = ticks() - begun;
        if (done) {
            times.add(took);
            received.add(item);
        } else {
            sched_yield();
        }
    }
}

/* Times each try until one is the last. */
template <class Try> void try_timed(Times &times, Try try_once) {
    for (bool done = false; !done;) {
        std::uint64_t begun = ticks();
        done = try_once();
        times.add(ticks() - begun);
        if (!done)
            sched_yield();
    }
}

void put_halves_timed(SteppedQueue &queue, unsigned thread, std::uint64_t each, Timed &timed) {
    for (std::uint64_t i = 0; i < each;) {
        std::uint64_t begun = ticks();
        bool done = queue.claim_put(thread, item_of(thread, i));
        std::uint64_t took = ticks() - begun;
        if (done) {
            timed.first.add(took);
            try_timed(timed.second, [&] { return queue.fill(thread); });
            i++;
        } else {
            sched_yield();
        }
    }
}

void get_halves_timed(SteppedQueue &queue, unsigned thread, std::uint64_t each, Timed &timed, Received &received) {
    while (received.count < each) {
        std::uint64_t item = 0, begun = ticks();
        bool done = queue.claim_get(thread);
        std::uint64_t took = ticks() - begun;
        if (done) {
            timed.first.add(took);
            try_timed(timed.second, [&] { return queue.take(thread, item); });
            received.add(item);
        } else {
            sched_yield();
        }
    }
}

/* What the threads from `begin` on timed, together. */
Timed sum_of(const std::vector<Timed> &parts, unsigned begin, unsigned end) {
    Timed sum;
    for (unsigned i = begin; i < end; i++) {
        sum.first.add(parts[i].first);
        sum.second.add(parts[i].second);
    }
    return sum;
}

void run_whole(const Implementation &implementation, const Setting &setting, Outcome &outcome) {
    unsigned pairs = setting.pairs;
    auto queue = implementation.open(setting.cells, 2 * pairs);
    std::vector<Timed> timed(2 * pairs);
    std::vector<Received> received(pairs);
    run_team(2 * pairs, [&](unsigned thread) {
        if (thread < pairs)
            put_timed(*queue, thread, setting.each, timed[thread].first);
        else
            get_timed(*queue, thread, setting.each, timed[thread].first, received[thread - pairs]);
    });
    must_be_whole(received, std::vector<std::uint64_t>(pairs, setting.each));
    outcome.puts = figures_of(sum_of(timed, 0, pairs).first);
    outcome.gets = figures_of(sum_of(timed, pairs, 2 * pairs).first);
}

void run_halves(const Implementation &implementation, const Setting &setting, Outcome &outcome) {
    unsigned pairs = setting.pairs;
    auto queue = implementation.open(setting.cells, 2 * pairs);
    auto &stepped = dynamic_cast<SteppedQueue &>(*queue);
    std::vector<Timed> timed(2 * pairs);
    std::vector<Received> received(pairs);
    run_team(2 * pairs, [&](unsigned thread) {
        if (thread < pairs)
            put_halves_timed(stepped, thread, setting.each, timed[thread]);
        else
            get_halves_timed(stepped, thread, setting.each, timed[thread], received[thread - pairs]);
    });
    must_be_whole(received, std::vector<std::uint64_t>(pairs, setting.each));
    Timed puts = sum_of(timed, 0, pairs), gets = sum_of(timed, pairs, 2 * pairs);
    outcome.put_claims = figures_of(puts.first);
    outcome.fills = figures_of(puts.second);
    outcome.get_claims = figures_of(gets.first);
    outcome.takes = figures_of(gets.second);
}

bool is_stepped(const Implementation &implementation) {
    return dynamic_cast<SteppedQueue *>(implementation.open(8, 2).get()) != nullptr;
}

const std::vector<Column> columns{{"median"}, {"99 %"}, {"99.9 %"}, {"worst"}};

void add_row(Table &table, const std::string &row, bool is_over, const Figures &figures) {
    double each[] = {figures.median, figures.of_a_hundred, figures.of_a_thousand, figures.worst};
    for (unsigned i = 0; i < columns.size(); i++)
        table.add(row, columns[i], is_over ? each[i] : standstill);
}

void add_runs(const Implementation &implementation, const Setting &setting, double cap, Table &table) {
    Shared<Outcome> outcome;
    bool is_over = ends_within(cap, [&] { run_whole(implementation, setting, *outcome); });
    add_row(table, implementation.name + ": put", is_over, outcome->puts);
    add_row(table, implementation.name + ": get", is_over, outcome->gets);
    if (!is_stepped(implementation))
        return;
    is_over = ends_within(cap, [&] { run_halves(implementation, setting, *outcome); });
    add_row(table, implementation.name + ": claim of a put", is_over, outcome->put_claims);
    add_row(table, implementation.name + ": try to fill", is_over, outcome->fills);
    add_row(table, implementation.name + ": claim of a get", is_over, outcome->get_claims);
    add_row(table, implementation.name + ": try to take", is_over, outcome->takes);
}

/* The rows are in the order of the implementations, whichever comes first in a round. */
void add_rows(const Options &options, Table &table) {
    for (const Implementation &implementation : chosen(options)) {
        for (const char *call : {": put", ": get"})
            table.add_row(implementation.name + call);
        if (is_stepped(implementation))
            for (const char *call : {": claim of a put", ": try to fill", ": claim of a get", ": try to take"})
                table.add_row(implementation.name + call);
    }
}
}

void measure_tails(const Options &options) {
    std::printf("A reading of the clock, which each time includes, takes %.0f ns.\n", nanoseconds_of_reading());
    for (unsigned cells : {8u, 1024u}) {
        for (unsigned pairs : {1u, 2u, 4u}) {
            std::string pairs_text = std::to_string(pairs) + (pairs == 1 ? " pair, " : " pairs, ");
            Table table("Nanoseconds of one call: " + pairs_text + (cells == 8 ? "8" : "1,024") + " cells", columns);
            add_rows(options, table);
            for (unsigned round = 0; round < options.rounds; round++)
                for (const Implementation &implementation : chosen_in_round(options, round))
                    add_runs(implementation, {pairs, cells, options.items}, options.cap, table);
            table.print();
        }
    }
}
