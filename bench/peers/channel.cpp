#include "channel.hpp"

#include <algorithm>

/* The entries are made before main starts, in an order that the linker chooses. */
static std::vector<ChannelImplementation> &all_implementations() {
    static std::vector<ChannelImplementation> all;
    return all;
}

const std::vector<ChannelImplementation> &channel_implementations() {
    return all_implementations();
}

ChannelEntry::ChannelEntry(ChannelImplementation implementation) {
    auto &all = all_implementations();
    auto comes_later = [&](const ChannelImplementation &other) { return implementation.place < other.place; };
    all.insert(std::find_if(all.begin(), all.end(), comes_later), std::move(implementation));
}
