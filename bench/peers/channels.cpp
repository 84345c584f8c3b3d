/* What an item costs through a channel whose threads sleep, how long sleepers take to wake up, and what they take of a processor. */
#include "channel.hpp"
#include "apart.hpp"
#include "clock.hpp"
#include "items.hpp"
#include "measures.hpp"
#include "table.hpp"
#include "team.hpp"

#include <algorithm>
#include <ctime>
#include <thread>

namespace {
struct Workload {
    std::string name;
    std::function<double(const ChannelImplementation &)> run; /* returns the figure */
    int decimals = 0;
};

/* Nanoseconds for each number that goes to another thread and comes back, by a channel of one cell for each way. */
double run_to_and_fro(const ChannelImplementation &implementation, std::uint64_t trips) {
    auto there = implementation.open(1, 2), back = implementation.open(1, 2);
    double took = run_team(2, [&](unsigned thread) {
        for (std::uint64_t trip = 0; trip < trips; trip++) {
            std::uint64_t wanted = item_of(0, trip);
            if (thread == 0)
                there->send(0, wanted);
            std::uint64_t came = (thread == 0 ? back : there)->receive(thread);
            if (came != wanted)
                fail("another item came than was sent");
            if (thread == 1)
                back->send(1, came);
        }
    });
    return took / static_cast<double>(trips);
}

/* Nanoseconds for an item, if each of these senders has a number of them, and the receivers have them all in equal shares. */
double run_traffic(const ChannelImplementation &implementation, unsigned cells, unsigned senders, unsigned receivers, std::uint64_t each) {
    auto channel = implementation.open(cells, senders + receivers);
    std::vector<Received> received(receivers);
    std::uint64_t share = senders * each / receivers;
    double took = run_team(senders + receivers, [&](unsigned thread) {
        if (thread < senders) {
            for (std::uint64_t i = 0; i < each; i++)
                channel->send(thread, item_of(thread, i));
            return;
        }
        Received mine;
        while (mine.count < share)
            mine.add(channel->receive(thread));
        received[thread - senders] = mine;
    });
    must_be_whole(received, std::vector<std::uint64_t>(senders, each));
    return took / static_cast<double>(senders * each);
}

double processor_clock() {
    timespec time{};
    clock_gettime(CLOCK_PROCESS_CPUTIME_ID, &time);
    return static_cast<double>(time.tv_sec) * 1e3 + static_cast<double>(time.tv_nsec) / 1e6;
}

/* Receivers that sleep before the first item is sent. */
class Sleepers {
public:
    Sleepers(const ChannelImplementation &implementation, unsigned count)
        : channel(implementation.open(8, count + 1)), sleepers(count), woken(count) {
        for (unsigned i = 0; i < count; i++)
            threads.emplace_back([this, i] {
                channel->receive(i + 1);
                woken[i] = monotonic_clock();
            });
        sleep_for(50);
    }

    /* Sends each an item. Returns the nanoseconds from then until the last has it. */
    double wake() {
        std::uint64_t begun = monotonic_clock();
        for (unsigned i = 0; i < sleepers; i++)
            channel->send(0, item_of(0, i));
        for (std::thread &thread : threads)
            thread.join();
        return static_cast<double>(*std::max_element(woken.begin(), woken.end()) - begun);
    }

private:
    std::unique_ptr<Channel> channel;
    unsigned sleepers;
    std::vector<std::uint64_t> woken;
    std::vector<std::thread> threads;
};

/* Microseconds until all of 64 sleepers have woken up. */
double run_wakes(const ChannelImplementation &implementation) {
    return Sleepers(implementation, 64).wake() / 1e3;
}

/* Milliseconds of the processors that eight sleepers take in a quarter of a second. */
double run_idle(const ChannelImplementation &implementation) {
    Sleepers sleepers(implementation, 8);
    double begun = processor_clock();
    sleep_for(250);
    double took = processor_clock() - begun;
    sleepers.wake();
    return took;
}

Workload traffic_of(const char *name, unsigned cells, unsigned senders, unsigned receivers, std::uint64_t each) {
    return {name, [=](const ChannelImplementation &implementation) {
        return run_traffic(implementation, cells, senders, receivers, each);
    }};
}

std::vector<Workload> workloads(std::uint64_t items) {
    auto to_and_fro = [=](const ChannelImplementation &implementation) { return run_to_and_fro(implementation, items / 4); };
    return {{"to and fro", to_and_fro}, traffic_of("1 pair", 1024, 1, 1, items), traffic_of("4 pairs", 1024, 4, 4, items),
        traffic_of("4 pairs, 8 cells", 8, 4, 4, items), traffic_of("16 and 16", 1024, 16, 16, items / 4),
        traffic_of("1 to 16", 8, 1, 16, items / 16 * 16), {"64 wake", run_wakes}, {"8 idle", run_idle, 1}};
}

/* Runs one workload on one channel in a process of its own, and adds its figure. */
void add_run(const Workload &workload, const ChannelImplementation &implementation, const Options &options, Table &table) {
    Shared<double> figure;
    bool is_over = ends_within(options.cap, [&] { *figure = workload.run(implementation); });
    table.add(implementation.name, {workload.name, workload.decimals}, is_over ? *figure : standstill);
}

std::vector<ChannelImplementation> chosen_channels(const Options &options) {
    std::vector<ChannelImplementation> found;
    for (const ChannelImplementation &implementation : channel_implementations())
        if (implementation.name.find(options.queue) != std::string::npos)
            found.push_back(implementation);
    return found;
}
}

void measure_channels(const Options &options) {
    std::vector<Column> columns;
    for (const Workload &workload : workloads(options.items))
        columns.push_back({workload.name, workload.decimals});
    Table table("Nanoseconds for an item, 1,024 cells or as said; for a number to and fro; microseconds until 64 sleepers have woken up; "
                "milliseconds of processor time that 8 sleepers take in a quarter of a second", columns);
    std::vector<ChannelImplementation> channels = chosen_channels(options);
    for (const ChannelImplementation &implementation : channels)
        table.add_row(implementation.name);
    for (unsigned round = 0; round < options.rounds; round++) {
        for (const Workload &workload : workloads(options.items))
            for (const ChannelImplementation &implementation : channels)
                add_run(workload, implementation, options, table);
        if (!channels.empty())
            std::rotate(channels.begin(), channels.begin() + 1, channels.end());
    }
    table.print();
}
