/* oneTBB's bounded queue, by its calls that do not wait for room or an item. */
#include "queue.hpp"

#include <oneapi/tbb/concurrent_queue.h>

namespace {
class TbbQueue : public Queue {
public:
    explicit TbbQueue(unsigned size) { queue.set_capacity(size); }

    bool put(unsigned, std::uint64_t item) override { return queue.try_push(item); }
    bool get(unsigned, std::uint64_t &item) override { return queue.try_pop(item); }

private:
    tbb::concurrent_bounded_queue<std::uint64_t> queue;
};

const Entry entry = entry_of<TbbQueue>(9, "oneTBB bounded");
}
