/* This library's channel, by the archive of `rt lib`: an end for each thread, and a shared channel. */
#include "channel.hpp"
#include "failure.hpp"
#include "fak_channel.h"

namespace {
constexpr std::uint64_t longest_stint = UINT64_C(1) << 40;

void must_be_ok(std::int32_t code) {
    if (code != FAK_C_OK)
        fail("the channel returned what it must not here");
}

class EndsChannel : public Channel {
public:
    EndsChannel(unsigned cells, unsigned threads) : ends(threads) {
        must_be_ok(fak_channel_open_ends(ends.data(), threads, cells, longest_stint));
    }

    ~EndsChannel() override {
        for (fak_channel_end &end : ends)
            must_be_ok(fak_channel_leave(&end));
    }

    void send(unsigned thread, std::uint64_t item) override {
        fak_channel_item words = fak_channel_of_word(item);
        must_be_ok(fak_channel_send(&ends[thread], &words));
    }

    std::uint64_t receive(unsigned thread) override {
        fak_channel_item words = {};
        must_be_ok(fak_channel_receive(&ends[thread], &words));
        return words.word[0];
    }

private:
    std::vector<fak_channel_end> ends;
};

/* Threads that hold no end: each call borrows one. There are as many for a side as threads. */
class SharedChannel : public Channel {
public:
    SharedChannel(unsigned cells, unsigned threads) : ends(FAK_CHANNEL_SHARED_ENDS(threads, threads)) {
        must_be_ok(fak_channel_shared_open(&shared, ends.data(), threads, threads, cells, longest_stint));
    }

    ~SharedChannel() override { must_be_ok(fak_channel_shared_leave(&shared)); }

    void send(unsigned, std::uint64_t item) override {
        fak_channel_item words = fak_channel_of_word(item);
        must_be_ok(fak_channel_shared_send(&shared, &words));
    }

    std::uint64_t receive(unsigned) override {
        fak_channel_item words = {};
        must_be_ok(fak_channel_shared_receive(&shared, &words));
        return words.word[0];
    }

private:
    std::vector<fak_channel_end> ends;
    fak_channel_shared shared = {};
};

template <class OneChannel> ChannelEntry entry_of(unsigned place, const char *name) {
    return ChannelEntry({place, name, [](unsigned cells, unsigned threads) { return std::make_unique<OneChannel>(cells, threads); }});
}

const ChannelEntry ends_entry = entry_of<EndsChannel>(1, "library, own ends");
const ChannelEntry shared_entry = entry_of<SharedChannel>(2, "library, shared");
}
