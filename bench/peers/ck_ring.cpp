/* Concurrency Kit's ring for many producers and many consumers. It holds one item less than it has cells. */
#include "ck_ring_calls.h"
#include "failure.hpp"
#include "queue.hpp"

namespace {
class CkRing : public ClaimingQueue {
public:
    explicit CkRing(unsigned size) : queue(ck_queue_open(size)) {
        if (queue == nullptr)
            fail("ck_ring: no memory");
    }
    ~CkRing() override { ck_queue_close(queue); }

    bool put(unsigned, std::uint64_t item) override { return ck_queue_put(queue, item); }
    bool get(unsigned, std::uint64_t &item) override { return ck_queue_get(queue, &item); }
    bool claim_put(unsigned, std::uint64_t item) override { return ck_queue_claim(queue, item, &claimed); }
    bool fill(unsigned) override {
        ck_queue_fill(queue, claimed);
        return true;
    }

private:
    ck_queue *queue;
    unsigned claimed = 0;
};

const Entry entry = entry_of<CkRing>(6, "ck_ring");
}
