/* What passes while one producer is stopped: between the halves of its put, if a queue has them apart; and anywhere, by a signal. */
#include "apart.hpp"
#include "clock.hpp"
#include "flow.hpp"
#include "measures.hpp"
#include "stop_signal.hpp"
#include "table.hpp"
#include "team.hpp"

#include <algorithm>
#include <sched.h>

namespace {
struct Setting {
    unsigned producers, consumers; /* without the producer that stops */
    unsigned cells;
};

/* What a stop between the halves showed. */
struct Halted {
    double got = 0;   /* items that passed */
    double until = 0; /* milliseconds into the stop at which the last of them did */
};

/* What the stops by a signal showed. */
struct Signalled {
    double standstills = 0; /* stops in whose second half nothing passed */
    double got = 0, until = 0; /* of these, in the mean */
};

double milliseconds_since(std::uint64_t begun, std::uint64_t now) {
    return now <= begun ? 0 : static_cast<double>(now - begun) * nanoseconds_of_tick() / 1e6;
}

/* The queue is empty, and the others begin once the claim is made. */
Halted stop_between_halves(ClaimingQueue &queue, Flow &flow, std::atomic<bool> &may_begin, double stop) {
    if (!queue.claim_put(0, item_of(0, 0)))
        fail("an empty queue was full");
    std::uint64_t begun = ticks();
    may_begin.store(true);
    sleep_for(stop);
    Halted halted{static_cast<double>(flow.got()), milliseconds_since(begun, flow.latest())};
    while (!queue.fill(0))
        sched_yield();
    flow.end_with_one(0);
    flow.end();
    return halted;
}

Halted run_halted(const Implementation &implementation, const Setting &setting, double stop) {
    unsigned producers = 1 + setting.producers, threads = producers + setting.consumers;
    auto queue = implementation.open(setting.cells, threads);
    Flow flow(*queue, producers, setting.consumers);
    std::atomic<bool> may_begin{false};
    Halted halted;
    run_team(threads, [&](unsigned thread) {
        if (thread == 0) {
            halted = stop_between_halves(dynamic_cast<ClaimingQueue &>(*queue), flow, may_begin, stop);
            return;
        }
        while (!may_begin.load())
            sched_yield();
        if (thread < producers)
            flow.produce(thread, UINT64_MAX);
        else
            flow.consume(thread);
    });
    flow.must_be_whole();
    return halted;
}

bool is_claiming(const Implementation &implementation) {
    return dynamic_cast<ClaimingQueue *>(implementation.open(8, 2).get()) != nullptr;
}

void measure_halts(const Options &options, const Setting &setting) {
    std::string title = "A producer is stopped between the halves of its put, on an empty queue of " +
        std::to_string(setting.cells) + " cells; " + std::to_string(setting.producers) + " others put, and " +
        std::to_string(setting.consumers) + " get";
    const Column passed{"items that pass"}, until{"the last of them after, ms", 2};
    Table table(title, {passed, until});
    for (const Implementation &implementation : chosen(options))
        table.add_row(implementation.name);
    for (unsigned round = 0; round < options.rounds; round++) {
        for (const Implementation &implementation : chosen_in_round(options, round)) {
            if (!is_claiming(implementation))
                continue;
            Shared<Halted> halted;
            bool is_over = ends_within(options.cap, [&] { *halted = run_halted(implementation, setting, options.stop); });
            table.add(implementation.name, passed, is_over ? halted->got : standstill);
            table.add(implementation.name, until, is_over ? halted->until : standstill);
        }
    }
    table.print();
}

/* Stops the thread by a signal, and adds what the others did meanwhile. */
void add_stop(const Flow &flow, pthread_t thread, double stop, Signalled &signalled) {
    std::uint64_t begun = begin_stop(thread, stop), before = flow.got();
    sleep_for(0.9 * stop);
    double got = static_cast<double>(flow.got() - before), until = milliseconds_since(begun, flow.latest());
    wait_for_end_of_stop();
    if (until > stop / 2)
        return;
    signalled.standstills++;
    signalled.got += got;
    signalled.until += until;
}

/* Stops the thread again and again, at moments that differ. */
Signalled stop_by_signals(Flow &flow, pthread_t thread, const Options &options) {
    Signalled signalled;
    for (unsigned i = 0; i < options.stops; i++) {
        sleep_for(1 + 0.137 * (i % 7));
        add_stop(flow, thread, options.stop, signalled);
    }
    flow.end();
    double standstills = std::max(signalled.standstills, 1.0);
    return {signalled.standstills, signalled.got / standstills, signalled.until / standstills};
}

/* Two producers, of which the first is stopped, and two consumers. */
Signalled run_signalled(const Implementation &implementation, const Options &options) {
    constexpr unsigned producers = 2, consumers = 2;
    auto queue = implementation.open(1024, producers + consumers);
    Flow flow(*queue, producers, consumers);
    std::atomic<pthread_t> stopped{0};
    Signalled signalled;
    run_team(producers + consumers + 1, [&](unsigned thread) {
        if (thread == 0)
            stopped.store(pthread_self());
        if (thread < producers) {
            flow.produce(thread, UINT64_MAX);
        } else if (thread < producers + consumers) {
            flow.consume(thread);
        } else {
            while (stopped.load() == 0)
                sched_yield();
            signalled = stop_by_signals(flow, stopped.load(), options);
        }
    });
    flow.must_be_whole();
    return signalled;
}

void measure_signals(const Options &options) {
    std::string title = "One of two producers is stopped by a signal anywhere in a loop of puts, " + std::to_string(options.stops) +
        " times; 1,024 cells, two consumers. Items and time are means over the standstills of a run";
    const std::vector<Column> columns{{"standstills"}, {"items until then"}, {"the last of them after, ms", 2}};
    Table table(title, columns);
    for (const Implementation &implementation : chosen(options))
        table.add_row(implementation.name);
    double cap = options.cap + options.stops * (options.stop + 10) / 1000;
    for (unsigned round = 0; round < options.rounds; round++) {
        for (const Implementation &implementation : chosen_in_round(options, round)) {
            Shared<Signalled> signalled;
            bool is_over = ends_within(cap, [&] { *signalled = run_signalled(implementation, options); });
            table.add(implementation.name, columns[0], is_over ? signalled->standstills : standstill);
            if (!is_over || signalled->standstills == 0)
                continue;
            table.add(implementation.name, columns[1], signalled->got);
            table.add(implementation.name, columns[2], signalled->until);
        }
    }
    table.print();
}
}

void measure_stops(const Options &options) {
    std::printf("\nA stop lasts %.0f ms. A queue that goes on passes its last item at the end of it.\n", options.stop);
    measure_halts(options, {2, 2, 8});
    measure_halts(options, {2, 2, 1024});
    measure_halts(options, {4, 4, 1024});
    measure_signals(options);
}
