#include "flow.hpp"

#include "clock.hpp"

#include <algorithm>
#include <sched.h>

static std::uint64_t sum_of(const std::vector<Progress> &parts) {
    std::uint64_t sum = 0;
    for (const Progress &part : parts)
        sum += part.count.load();
    return sum;
}

Flow::Flow(Queue &measured, unsigned producers, unsigned consumers)
    : queue(measured), puts(producers), gets(consumers), received(consumers), producing(producers) {}

bool Flow::produce(unsigned producer, std::uint64_t most) {
    while (count_of(producer) < most && !is_ending.load()) {
        if (queue.put(producer, item_of(producer, count_of(producer))))
            puts[producer].add();
        else
            sched_yield();
    }
    producing--;
    return count_of(producer) == most;
}

void Flow::consume(unsigned consumer) {
    auto place = consumer - static_cast<unsigned>(puts.size());
    while (!is_drained()) {
        std::uint64_t item = 0;
        if (queue.get(consumer, item)) {
            received[place].add(item);
            gets[place].last.store(ticks(), std::memory_order_relaxed);
            gets[place].add();
        } else {
            sched_yield();
        }
    }
}

/* The producers have ended before what they put is counted. */
bool Flow::is_drained() const {
    return is_ending.load(std::memory_order_relaxed) && producing.load() == 0 && got() == sum_of(puts);
}

void Flow::must_be_whole() const {
    std::vector<std::uint64_t> counts;
    for (const Progress &part : puts)
        counts.push_back(part.count.load());
    ::must_be_whole(received, counts);
}

std::uint64_t Flow::got() const {
    return sum_of(gets);
}

std::uint64_t Flow::latest() const {
    std::uint64_t latest = 0;
    for (const Progress &part : gets)
        latest = std::max(latest, part.last.load());
    return latest;
}
