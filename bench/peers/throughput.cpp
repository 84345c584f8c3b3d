/* What an item costs, put and got, at several numbers of threads; and a hand-over to another thread and back. */
#include "apart.hpp"
#include "items.hpp"
#include "measures.hpp"
#include "table.hpp"
#include "team.hpp"
#include "waiting.hpp"

#include <array>
#include <cstdio>

namespace {
/* What a run leaves for the process that started it. */
struct Outcome {
    double nanoseconds = 0; /* of an item, or of a hand-over and back */
    std::array<Progress, most_producers> progress;

    std::uint64_t passed() const {
        std::uint64_t sum = 0;
        for (const Progress &part : progress)
            sum += part.count.load();
        return sum;
    }
};

struct Workload {
    std::string name;
    std::uint64_t items; /* that pass in a run */
    std::function<void(const Implementation &, Outcome &)> run;
};

/* Has each cell used once. */
void warm(Queue &queue, unsigned cells) {
    std::uint64_t item = 0;
    for (unsigned i = 0; i < cells; i++)
        if (!queue.put(0, 1) || !queue.get(0, item) || item != 1)
            fail("a queue that one thread uses refused, or lost an item");
}

void run_alone(const Implementation &implementation, std::uint64_t items, Outcome &outcome) {
    auto queue = implementation.open(1024, 1);
    warm(*queue, 1024);
    double took = run_team(1, [&](unsigned) {
        for (std::uint64_t i = 0; i < items; i++) {
            std::uint64_t item = 0;
            if (!queue->put(0, item_of(0, i)) || !queue->get(0, item) || item != item_of(0, i))
                fail("a queue that one thread uses refused, or lost an item");
        }
    });
    outcome.nanoseconds = took / static_cast<double>(items);
}

void put_all(Queue &queue, unsigned thread, std::uint64_t each) {
    for (std::uint64_t i = 0; i < each;) {
        if (queue.put(thread, item_of(thread, i)))
            i++;
        else
            sched_yield();
    }
}

void get_all(Queue &queue, unsigned thread, std::uint64_t each, Progress &progress, Received &received) {
    Received mine;
    while (mine.count < each) {
        std::uint64_t item = 0;
        if (queue.get(thread, item)) {
            mine.add(item);
            progress.add();
        } else {
            sched_yield();
        }
    }
    received = mine;
}

void run_pairs(const Implementation &implementation, unsigned pairs, std::uint64_t each, Outcome &outcome) {
    auto queue = implementation.open(1024, 2 * pairs);
    std::vector<Received> received(pairs);
    warm(*queue, 1024);
    double took = run_team(2 * pairs, [&](unsigned thread) {
        if (thread < pairs)
            put_all(*queue, thread, each);
        else
            get_all(*queue, thread, each, outcome.progress[thread - pairs], received[thread - pairs]);
    });
    must_be_whole(received, std::vector<std::uint64_t>(pairs, each));
    outcome.nanoseconds = took / static_cast<double>(pairs * each);
}

void send(Queue &queue, unsigned thread, std::uint64_t trip) {
    if (!queue.put(thread, item_of(thread, trip)))
        fail("an empty queue was full");
}

/* Waits for the item of this trip. A thread that was to be woken soon pauses for a while before it yields. */
void receive(Queue &queue, unsigned thread, std::uint64_t wanted) {
    std::uint64_t item = 0;
    for (Patience patience(1000); !queue.get(thread, item);)
        patience.wait();
    if (item != wanted)
        fail("another item came than was sent");
}

void run_hand_over(const Implementation &implementation, std::uint64_t trips, Outcome &outcome) {
    auto there = implementation.open(8, 2), back = implementation.open(8, 2);
    warm(*there, 8);
    warm(*back, 8);
    double took = run_team(2, [&](unsigned thread) {
        for (std::uint64_t trip = 0; trip < trips; trip++) {
            if (thread == 0) {
                send(*there, 0, trip);
                receive(*back, 0, item_of(1, trip));
                outcome.progress[0].add();
            } else {
                receive(*there, 1, item_of(0, trip));
                send(*back, 1, trip);
            }
        }
    });
    outcome.nanoseconds = took / static_cast<double>(trips);
}

Workload pairs_of(const char *name, unsigned pairs, std::uint64_t each) {
    return {name, pairs * each, [=](const Implementation &implementation, Outcome &outcome) {
        run_pairs(implementation, pairs, each, outcome);
    }};
}

std::vector<Workload> workloads(std::uint64_t items) {
    Workload alone{"one thread", 4 * items, [=](const Implementation &implementation, Outcome &outcome) {
        run_alone(implementation, 4 * items, outcome);
    }};
    Workload hand_over{"hand-over and back", items / 4, [=](const Implementation &implementation, Outcome &outcome) {
        run_hand_over(implementation, items / 4, outcome);
    }};
    return {alone, pairs_of("1 pair", 1, items), pairs_of("2 pairs", 2, items), pairs_of("4 pairs", 4, items),
        pairs_of("16 and 16 threads", 16, items / 2), hand_over};
}

/* Runs one workload on one queue, and adds its figure. */
void add_run(const Workload &workload, const Implementation &implementation, const Options &options, Table &table) {
    Shared<Outcome> outcome;
    if (ends_within(options.cap, [&] { workload.run(implementation, *outcome); })) {
        table.add(implementation.name, {workload.name}, outcome->nanoseconds);
        return;
    }
    char line[200];
    std::snprintf(line, sizeof line, "stands still: %s, %s: %llu of %llu passed in %g s", implementation.name.c_str(),
        workload.name.c_str(), static_cast<unsigned long long>(outcome->passed()),
        static_cast<unsigned long long>(workload.items), options.cap);
    table.add(implementation.name, {workload.name}, standstill);
    table.note(line);
}
}

void measure_throughput(const Options &options) {
    std::vector<Column> columns;
    for (const Workload &workload : workloads(options.items))
        columns.push_back({workload.name});
    Table table("Nanoseconds for an item put and got, 1,024 cells; for a hand-over to another thread and back, 8 cells", columns);
    for (const Implementation &implementation : chosen(options))
        table.add_row(implementation.name);
    for (unsigned round = 0; round < options.rounds; round++)
        for (const Workload &workload : workloads(options.items))
            for (const Implementation &implementation : chosen_in_round(options, round))
                add_run(workload, implementation, options, table);
    table.print();
}
