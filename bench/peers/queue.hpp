/* What is measured: bounded queues of 64-bit items, first in first out, for threads that are numbered from 0. */
#pragma once

#include <cstdint>
#include <functional>
#include <memory>
#include <string>
#include <vector>

/* Each call is a virtual one, so that every queue pays the same for it. */
class Queue {
public:
    Queue() = default;
    Queue(const Queue &) = delete;
    Queue &operator=(const Queue &) = delete;
    virtual ~Queue() = default;

    /* False if there is no room. */
    virtual bool put(unsigned thread, std::uint64_t item) = 0;

    /* False if there is no item. */
    virtual bool get(unsigned thread, std::uint64_t &item) = 0;
};

/* A queue whose put can stop between its two halves. One thread at a time does. */
class ClaimingQueue : public Queue {
public:
    /* False if there is no room. Otherwise `fill` has to end the put. */
    virtual bool claim_put(unsigned thread, std::uint64_t item) = 0;

    /* False if the item cannot be moved in yet. */
    virtual bool fill(unsigned thread) = 0;
};

/* A queue whose get has two halves as well. Any number of threads may be between theirs. */
class SteppedQueue : public ClaimingQueue {
public:
    /* False if there is no item. Otherwise `take` has to end the get. */
    virtual bool claim_get(unsigned thread) = 0;

    /* False if the item cannot be moved out yet. */
    virtual bool take(unsigned thread, std::uint64_t &item) = 0;
};

/* What a queue has in addition if it puts and gets several items by one call. */
class Bursts {
public:
    virtual ~Bursts() = default;

    /* Puts the first items, as many as there is room for. Returns how many. */
    virtual unsigned put_burst(unsigned thread, const std::uint64_t *items, unsigned count) = 0;

    /* Gets at most `count` items. Returns how many. */
    virtual unsigned get_burst(unsigned thread, std::uint64_t *items, unsigned count) = 0;
};

struct Implementation {
    unsigned place; /* in tables, from the top */
    std::string name;
    std::function<std::unique_ptr<Queue>(unsigned cells, unsigned threads)> open;
    /* For bursts of at most `width` items, if that is another queue than the one above. */
    std::function<std::unique_ptr<Queue>(unsigned cells, unsigned threads, unsigned width)> open_for_bursts = {};
};

/* All implementations that were linked, in the order of their places. */
const std::vector<Implementation> &implementations();

/* Adds an implementation, as the program starts. */
class Entry {
public:
    explicit Entry(Implementation implementation);
};

/* An entry for a class whose constructor takes the number of cells. */
template <class OneQueue> Entry entry_of(unsigned place, const char *name) {
    return Entry({place, name, [](unsigned cells, unsigned) { return std::make_unique<OneQueue>(cells); }});
}
