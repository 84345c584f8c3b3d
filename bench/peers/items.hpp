/* The items, and the test that what came out is what went in. */
#pragma once

#include "failure.hpp"

#include <array>
#include <atomic>
#include <cstdint>
#include <vector>

constexpr unsigned most_producers = 16;
constexpr unsigned most_threads = 2 * most_producers;

/* Counts what a thread did, for others to read, in cache lines of its own. */
struct alignas(128) Progress {
    std::atomic<std::uint64_t> count{0};
    std::atomic<std::uint64_t> last{0}; /* the ticks at the latest of them, if they are noted */

    /* By one thread only. */
    void add() { count.store(count.load(std::memory_order_relaxed) + 1, std::memory_order_relaxed); }
};

/* The item that a producer puts as its `number`-th. It is never 0. */
inline std::uint64_t item_of(unsigned producer, std::uint64_t number) {
    return (std::uint64_t{producer} << 40) + number + 1;
}

/* What one consumer got. What it got of one producer has to come in the order in which it was put. */
struct alignas(128) Received {
    std::uint64_t count = 0;
    std::uint64_t sum = 0;
    std::array<std::uint64_t, most_producers> latest{};

    void add(std::uint64_t item) {
        std::uint64_t producer = item >> 40;
        if (producer >= most_producers || item <= latest[producer])
            fail("an item came out of order, twice or torn");
        latest[producer] = item;
        count++;
        sum += item;
    }
};

/* Ends the program unless the consumers got, together, the first `counts[p]` items of each producer p. */
inline void must_be_whole(const std::vector<Received> &received, const std::vector<std::uint64_t> &counts) {
    std::uint64_t count = 0, sum = 0;
    for (unsigned producer = 0; producer < counts.size(); producer++) {
        std::uint64_t n = counts[producer];
        count += n;
        sum += n * item_of(producer, 0) + n * (n - 1) / 2;
    }
    for (const Received &part : received) {
        count -= part.count;
        sum -= part.sum;
    }
    if (count != 0 || sum != 0)
        fail("an item was lost or came twice");
}
