/* A ring under a mutex, with a condition variable for each side. */
#include "channel.hpp"

#include <condition_variable>
#include <mutex>

namespace {
class LockedChannel : public Channel {
public:
    explicit LockedChannel(unsigned cells) : items(cells) {}

    void send(unsigned, std::uint64_t item) override {
        {
            std::unique_lock<std::mutex> held(lock);
            has_room.wait(held, [&] { return sends - receives < items.size(); });
            items[sends++ % items.size()] = item;
        }
        has_item.notify_one();
    }

    std::uint64_t receive(unsigned) override {
        std::uint64_t item = 0;
        {
            std::unique_lock<std::mutex> held(lock);
            has_item.wait(held, [&] { return sends != receives; });
            item = items[receives++ % items.size()];
        }
        has_room.notify_one();
        return item;
    }

private:
    std::mutex lock;
    std::condition_variable has_room, has_item;
    std::uint64_t sends = 0, receives = 0;
    std::vector<std::uint64_t> items;
};

const ChannelEntry entry({3, "mutex, two condition variables",
    [](unsigned cells, unsigned) { return std::make_unique<LockedChannel>(cells); }});
}
