/* A ring under a mutex. A put that stops between its halves holds the mutex. */
#include "queue.hpp"

#include <algorithm>
#include <mutex>

namespace {
class MutexRing : public ClaimingQueue, public Bursts {
public:
    explicit MutexRing(unsigned size) : cells(size), mask(size - 1) {}

    bool put(unsigned thread, std::uint64_t item) override { return claim_put(thread, item) && fill(thread); }

    bool claim_put(unsigned, std::uint64_t item) override {
        lock.lock();
        if (puts - gets > mask) {
            lock.unlock();
            return false;
        }
        cells[puts++ & mask] = item;
        return true;
    }

    bool fill(unsigned) override {
        lock.unlock();
        return true;
    }

    bool get(unsigned, std::uint64_t &item) override {
        std::lock_guard<std::mutex> held(lock);
        if (puts == gets)
            return false;
        item = cells[gets++ & mask];
        return true;
    }

    unsigned put_burst(unsigned, const std::uint64_t *items, unsigned count) override {
        std::lock_guard<std::mutex> held(lock);
        auto fitting = static_cast<unsigned>(std::min<std::uint64_t>(count, mask + 1 - (puts - gets)));
        for (unsigned i = 0; i < fitting; i++)
            cells[puts++ & mask] = items[i];
        return fitting;
    }

    unsigned get_burst(unsigned, std::uint64_t *items, unsigned count) override {
        std::lock_guard<std::mutex> held(lock);
        auto there = static_cast<unsigned>(std::min<std::uint64_t>(count, puts - gets));
        for (unsigned i = 0; i < there; i++)
            items[i] = cells[gets++ & mask];
        return there;
    }

private:
    alignas(128) std::mutex lock;
    std::uint64_t puts = 0, gets = 0;
    std::vector<std::uint64_t> cells;
    std::uint64_t mask;
};

const Entry entry = entry_of<MutexRing>(10, "mutex and ring");
}
