/* DPDK's ring, by head and tail as one word (HTS), which has the two halves of a put apart, and with a relaxed tail (RTS). Both have
 * bursts. */
#include "failure.hpp"
#include "queue.hpp"

#include <cstdlib>
#include <rte_ring.h>
#include <rte_ring_peek.h>

namespace {
/* With this flag a ring of any size holds that many items. */
rte_ring *open_ring(unsigned size, unsigned flags) {
    ssize_t bytes = rte_ring_get_memsize_elem(sizeof(void *), 2 * size);
    if (bytes < 0)
        fail("rte_ring: the size");
    auto rounded = (static_cast<std::size_t>(bytes) + 127) / 128 * 128;
    auto *ring = static_cast<rte_ring *>(std::aligned_alloc(128, rounded));
    if (ring == nullptr || rte_ring_init(ring, "measured", size, flags | RING_F_EXACT_SZ) != 0)
        fail("rte_ring: no memory");
    return ring;
}

void *pointer_of(std::uint64_t item) {
    return reinterpret_cast<void *>(item);
}

/* What both kinds share. */
template <class Kind, unsigned flags> class RteRing : public Kind, public Bursts {
public:
    explicit RteRing(unsigned size) : ring(open_ring(size, flags)) {}
    ~RteRing() override { std::free(ring); }

    bool put(unsigned, std::uint64_t item) override { return rte_ring_enqueue(ring, pointer_of(item)) == 0; }

    bool get(unsigned, std::uint64_t &item) override {
        void *found = nullptr;
        if (rte_ring_dequeue(ring, &found) != 0)
            return false;
        item = reinterpret_cast<std::uint64_t>(found);
        return true;
    }

    unsigned put_burst(unsigned, const std::uint64_t *items, unsigned count) override {
        return rte_ring_enqueue_burst_elem(ring, items, sizeof *items, count, nullptr);
    }

    unsigned get_burst(unsigned, std::uint64_t *items, unsigned count) override {
        return rte_ring_dequeue_burst_elem(ring, items, sizeof *items, count, nullptr);
    }

protected:
    rte_ring *ring;
};

using RtsRing = RteRing<Queue, RING_F_MP_RTS_ENQ | RING_F_MC_RTS_DEQ>;

class HtsRing : public RteRing<ClaimingQueue, RING_F_MP_HTS_ENQ | RING_F_MC_HTS_DEQ> {
public:
    using RteRing::RteRing;

    bool claim_put(unsigned, std::uint64_t item) override {
        claimed = pointer_of(item);
        return rte_ring_enqueue_bulk_start(ring, 1, nullptr) == 1;
    }

    bool fill(unsigned) override {
        rte_ring_enqueue_finish(ring, &claimed, 1);
        return true;
    }

private:
    void *claimed = nullptr;
};

const Entry hts_entry = entry_of<HtsRing>(7, "rte_ring HTS");
const Entry rts_entry = entry_of<RtsRing>(8, "rte_ring RTS");
}
