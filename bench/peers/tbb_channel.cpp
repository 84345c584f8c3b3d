/* oneTBB's bounded queue, by its calls that wait. */
#include "channel.hpp"

#include <oneapi/tbb/concurrent_queue.h>

namespace {
class TbbChannel : public Channel {
public:
    explicit TbbChannel(unsigned cells) { queue.set_capacity(cells); }

    void send(unsigned, std::uint64_t item) override { queue.push(item); }

    std::uint64_t receive(unsigned) override {
        std::uint64_t item = 0;
        queue.pop(item);
        return item;
    }

private:
    tbb::concurrent_bounded_queue<std::uint64_t> queue;
};

const ChannelEntry entry({4, "oneTBB bounded", [](unsigned cells, unsigned) { return std::make_unique<TbbChannel>(cells); }});
}
