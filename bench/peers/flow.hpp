/* Producers and consumers of one queue, who go on until they are told to end. */
#pragma once

#include "items.hpp"
#include "queue.hpp"

#include <atomic>
#include <vector>

/* The producers are the threads below `producers`, and the consumers the threads from there on. */
class Flow {
public:
    Flow(Queue &measured, unsigned producers, unsigned consumers);

    /* Puts items until the end, or until there are `most` of them. Returns whether there are. */
    bool produce(unsigned producer, std::uint64_t most);

    /* For a producer that does not call `produce`: counts the one item that it put, and its end. */
    void end_with_one(unsigned producer) {
        puts[producer].add();
        producing--;
    }

    /* Gets items until the end, when all that was put is got. */
    void consume(unsigned consumer);

    /* Has the producers end. */
    void end() { is_ending.store(true); }

    /* Ends the program unless all that was put was got. For after the threads have ended. */
    void must_be_whole() const;

    std::uint64_t count_of(unsigned producer) const { return puts[producer].count.load(); }
    std::uint64_t got() const;

    /* The ticks at which the latest item was got. */
    std::uint64_t latest() const;

private:
    bool is_drained() const;

    Queue &queue;
    std::vector<Progress> puts, gets;
    std::vector<Received> received;
    std::atomic<bool> is_ending{false};
    std::atomic<unsigned> producing;
};
