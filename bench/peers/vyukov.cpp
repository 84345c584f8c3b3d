/* D. Vyukov's bounded queue: a counter for each end, moved on by compare-and-swap, and a turn in each cell. */
#include "queue.hpp"

#include <atomic>

namespace {
class VyukovQueue : public ClaimingQueue {
public:
    explicit VyukovQueue(unsigned size) : cells(size), mask(size - 1) {
        for (unsigned i = 0; i < size; i++)
            cells[i].turn.store(i, std::memory_order_relaxed);
    }

    bool put(unsigned, std::uint64_t item) override {
        std::uint64_t number = 0;
        if (!next(puts, 0, number))
            return false;
        end_put(number, item);
        return true;
    }

    bool get(unsigned, std::uint64_t &item) override {
        std::uint64_t number = 0;
        if (!next(gets, 1, number))
            return false;
        item = cells[number & mask].item;
        cells[number & mask].turn.store(number + mask + 1, std::memory_order_release);
        return true;
    }

    bool claim_put(unsigned, std::uint64_t item) override {
        claimed_item = item;
        return next(puts, 0, claimed);
    }

    bool fill(unsigned) override {
        end_put(claimed, claimed_item);
        return true;
    }

private:
    struct Cell {
        std::atomic<std::uint64_t> turn;
        std::uint64_t item;
    };

    /* Takes the next number of the counter once its cell's turn has come. False if the cell is late by a round. */
    bool next(std::atomic<std::uint64_t> &counter, std::uint64_t ahead, std::uint64_t &number) {
        number = counter.load(std::memory_order_relaxed);
        for (;;) {
            std::uint64_t turn = cells[number & mask].turn.load(std::memory_order_acquire);
            auto early = static_cast<std::int64_t>(turn - (number + ahead));
            if (early < 0)
                return false;
            if (early > 0)
                number = counter.load(std::memory_order_relaxed);
            else if (counter.compare_exchange_weak(number, number + 1, std::memory_order_relaxed))
                return true;
        }
    }

    void end_put(std::uint64_t number, std::uint64_t item) {
        cells[number & mask].item = item;
        cells[number & mask].turn.store(number + 1, std::memory_order_release);
    }

    std::vector<Cell> cells;
    std::uint64_t mask;
    std::uint64_t claimed = 0, claimed_item = 0;
    alignas(128) std::atomic<std::uint64_t> puts{0};
    alignas(128) std::atomic<std::uint64_t> gets{0};
};

const Entry entry = entry_of<VyukovQueue>(5, "Vyukov's ring");
}
