/* What is measured: bounded channels of 64-bit items, whose threads sleep while they wait. Threads are numbered from 0. */
#pragma once

#include <cstdint>
#include <functional>
#include <memory>
#include <string>
#include <vector>

/* Each call is a virtual one, so that every channel pays the same for it. */
class Channel {
public:
    Channel() = default;
    Channel(const Channel &) = delete;
    Channel &operator=(const Channel &) = delete;
    virtual ~Channel() = default;

    /* Sleeps while the channel is full. */
    virtual void send(unsigned thread, std::uint64_t item) = 0;

    /* Sleeps while the channel is empty. */
    virtual std::uint64_t receive(unsigned thread) = 0;
};

struct ChannelImplementation {
    unsigned place; /* in tables, from the top */
    std::string name;
    std::function<std::unique_ptr<Channel>(unsigned cells, unsigned threads)> open;
};

/* All implementations that were linked, in the order of their places. */
const std::vector<ChannelImplementation> &channel_implementations();

/* Adds an implementation, as the program starts. */
class ChannelEntry {
public:
    explicit ChannelEntry(ChannelImplementation implementation);
};
