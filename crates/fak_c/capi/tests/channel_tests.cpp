/* Tests of fak_channel.hpp: items of each kind, handles that move and end, each call and its codes, and owned items that threads share. */
#include "check.h"
#include "fak_channel.hpp"

#include <array>
#include <cstdio>
#include <cstdlib>
#include <cstring>
#include <new>
#include <thread>
#include <vector>

using fak::Code;

/* ---- Items ---- */

/* An item that counts how many of it there are. */
struct Counted {
    static inline std::atomic<long> live{0};
    int sender, number;
    Counted(int of, int which) : sender(of), number(which) { live++; }
    Counted(const Counted &) = delete;
    ~Counted() { live--; }
};

using Owned = std::unique_ptr<Counted>;

struct Large {
    std::uint64_t words[4];
};

/* An item comes out as it went in, by an end and by a sender and a receiver. */
template <class T, class Same> static void passes(const T &item, Same same) {
    fak::ChannelEnd<T> ends[2];
    CHECK(fak::ChannelEnd<T>::open(ends, 4, 100) == Code::Ok && ends[0].send(item) == Code::Ok);
    auto got = ends[1].receive();
    CHECK(got && same(got.value));
    auto channel = fak::Channel<T>::open(4);
    CHECK(channel && channel.value.sender.send(item) == Code::Ok && channel.value.sender.try_send(item) == Code::Ok);
    CHECK(channel.value.sender.send_for(item, std::chrono::seconds(9)) == Code::Ok);
    for (int i = 0; i < 3; i++) {
        auto received = channel.value.receiver.receive();
        CHECK(received && same(received.value));
    }
}

static void items_have_types() {
    static const int place = 0;
    passes<int>(-7, [](int item) { return item == -7; });
    passes<char>('x', [](char item) { return item == 'x'; });
    passes<const int *>(&place, [](const int *item) { return item == &place; });
    passes<Large>({{1, 2, 3, 4}}, [](const Large &item) { return item.words[0] == 1 && item.words[3] == 4; });
}

/* An array is owned as a whole. */
static void arrays_pass() {
    using Array = std::unique_ptr<int[]>;
    fak::ChannelEnd<Array> ends[2];
    CHECK(fak::ChannelEnd<Array>::open(ends, 2, 100) == Code::Ok);
    Array item = std::make_unique<int[]>(3);
    item[2] = 9;
    CHECK(ends[0].send(std::move(item)) == Code::Ok && item == nullptr);
    auto got = ends[1].receive();
    CHECK(got && got.value[2] == 9);
    auto channel = fak::Channel<Array>::open(2);
    CHECK(channel && channel.value.sender.send(std::move(got.value)) == Code::Ok);
    CHECK(channel.value.sender.try_send(std::make_unique<int[]>(1000)) == Code::Ok && channel.value.receiver.receive().value[2] == 9);
    CHECK(ends[1].send(std::make_unique<int[]>(1000)) == Code::Ok);
}

/* An item with bytes between its members. */
struct Padded {
    char letter;
    std::int64_t number;
};

/* What an item becomes if these bits lay before where it was made. */
[[maybe_unused]] static fak_channel_item words_over(unsigned char bits) {
    alignas(Padded) unsigned char bytes[sizeof(Padded)];
    std::memset(bytes, bits, sizeof bytes);
    Padded *item = new (bytes) Padded;
    fak::ChannelEnd<Padded> ends[1];
    fak_channel_item words{};
    item->letter = 'x';
    item->number = -1;
    CHECK(fak::ChannelEnd<Padded>::open(ends, 4, 9) == Code::Ok && ends[0].send(*item) == Code::Ok);
    CHECK(fak_channel_receive(ends[0].get_end(), &words) == FAK_C_OK);
    return words;
}

/* No byte is sent that the program has not written. */
static void bytes_between_members_are_0() {
#ifdef FAK_C_CLEARS_PADDING
    for (int bits : {0, 0xA5, 0xFF}) {
        fak_channel_item words = words_over(static_cast<unsigned char>(bits));
        CHECK(words.word[0] == 'x' && words.word[1] == UINT64_MAX && words.word[2] == 0 && words.word[3] == 0);
    }
#endif
    passes<Padded>({'y', 7}, [](const Padded &item) { return item.letter == 'y' && item.number == 7; });
}

/* ---- Handles ---- */

/* Whether a class can send an int. */
template <class Self, class = void> struct CanSend : std::false_type {};
template <class Self> struct CanSend<Self, std::void_t<decltype(std::declval<Self &>().send(1))>> : std::true_type {};
template <class Self, class = void> struct CanReceive : std::false_type {};
template <class Self> struct CanReceive<Self, std::void_t<decltype(std::declval<Self &>().receive())>> : std::true_type {};

/* Any number of threads call a sender, or a receiver, at once. One thread at a time calls an end. */
static_assert(CanSend<const fak::Sender<int>>::value && CanReceive<const fak::Receiver<int>>::value);
static_assert(CanSend<fak::ChannelEnd<int>>::value && !CanSend<const fak::ChannelEnd<int>>::value);
static_assert(CanReceive<fak::ChannelEnd<int>>::value && !CanReceive<const fak::ChannelEnd<int>>::value);

static void ends_own_their_items() {
    {
        std::array<fak::ChannelEnd<Owned>, 3> ends;
        CHECK(fak::ChannelEnd<Owned>::open(ends, 2, 100) == Code::Ok && ends[0]);
        CHECK(fak::ChannelEnd<Owned>::open(ends, 2, 100) == Code::WrongState);
        Owned item = std::make_unique<Counted>(1, 2);
        CHECK(ends[0].send(std::move(item)) == Code::Ok && item == nullptr && Counted::live == 1);
        CHECK(ends[0].try_send(std::make_unique<Counted>(1, 3)) == Code::Ok);
        item = std::make_unique<Counted>(1, 4);
        CHECK(ends[0].try_send(std::move(item)) == Code::Full && item != nullptr);
        CHECK(ends[0].send_until(std::move(item), fak::Clock::now()) == Code::GaveUp && item != nullptr && Counted::live == 3);
        CHECK(ends[0].send_for(std::move(item), std::chrono::milliseconds(1)) == Code::GaveUp && item != nullptr && Counted::live == 3);
        auto got = ends[1].receive();
        CHECK(got && got.value->number == 2);
        fak::ChannelEnd<Owned> moved = std::move(ends[0]);
        CHECK(moved && !ends[0] && ends[0].send(std::move(item)) == Code::NoSeat && item != nullptr);
        CHECK(moved.send(std::move(item)) == Code::Ok && moved.len().value == 2 && !moved.is_closed().value);
        ends[0] = std::move(moved);
        fak::ChannelEnd<Owned> &same = ends[0];
        ends[0] = std::move(same);
        CHECK(ends[0].close() == Code::Ok && ends[1].close() == Code::Closed && ends[2].is_closed().value);
        CHECK(ends[0].try_send(std::move(got.value)) == Code::Closed && got.value != nullptr);
        CHECK(ends[1].try_receive().value->number == 3 && ends[2].leave() == Code::Ok && !ends[2] && ends[2].leave() == Code::NoSeat);
        CHECK(Counted::live == 2 && ends[0].get_end()->seat.at != nullptr);
    }
    CHECK(Counted::live == 0);
}

/* The seats of a channel whose ends wait by functions of the program's own. */
static void open_own(fak_channel_waiting &waiting, fak::ChannelEnd<int> (&ends)[2]) {
    fak_c_seat seats[2]{};
    waiting.park = [](void *, std::uint64_t, std::uint64_t) { return true; };
    waiting.unpark = [](void *, std::uint64_t) {};
    CHECK(fak_channel_open(seats, 2, 2, 100) == FAK_C_OK);
    for (int i = 0; i < 2; i++)
        CHECK(fak_channel_end_of(&seats[i], &waiting, ends[i].get_end()) == FAK_C_OK);
}

/* Such an end leaves, although nobody has said how many seats there are. */
static void ends_of_an_own_waiting_leave() {
    fak_channel_waiting waiting{};
    {
        fak::ChannelEnd<int> ends[2];
        open_own(waiting, ends);
        CHECK(waiting.ends == 2 && ends[0].send(7) == Code::Ok && ends[1].receive().value == 7);
        CHECK(ends[0].leave() == Code::Ok && !ends[0] && waiting.ends == 1);
    }
    CHECK(waiting.ends == 0);
}

static void *volatile abandoned; /* since it is known here, the address sanitizer finds no leak */

/* An assignment to an end in a call by steps abandons it, and moves the other. */
static void an_end_in_a_call_is_abandoned() {
    fak_channel_waiting waiting{};
    fak::ChannelEnd<int> ends[2], others[2];
    open_own(waiting, ends);
    CHECK(fak::ChannelEnd<int>::open(others, 2, 100) == Code::Ok);
    CHECK(fak_channel_begin_receive(&ends[0].get_end()->seat) == FAK_C_OK && ends[0].leave() == Code::WrongState);
    abandoned = ends[0].get_end()->seat.at;
    ends[0] = std::move(others[0]);
    CHECK(ends[0] && !others[0] && ends[0].send(7) == Code::Ok && others[1].receive().value == 7 && waiting.ends == 2);
}

static void ends_wait_until_a_time() {
    std::vector<fak::ChannelEnd<int>> ends(1), none;
    CHECK(fak::ChannelEnd<int>::open(none, 1, 100) == Code::BadLimit);
    auto time = fak::Clock::now() + std::chrono::milliseconds(20);
    CHECK(fak::ChannelEnd<int>::open(ends, 1, 100) == Code::Ok && ends[0].try_receive().code == Code::Empty);
    CHECK(ends[0].receive_until(time).code == Code::GaveUp && fak::Clock::now() >= time);
    CHECK(ends[0].receive_until(fak::Clock::time_point()).code == Code::GaveUp);
    CHECK(ends[0].send_until(5, fak::Clock::time_point::max()) == Code::Ok && ends[0].receive_until(time).value == 5);
    CHECK(ends[0].send_for(6, std::chrono::seconds(9)) == Code::Ok && ends[0].receive_for(std::chrono::hours::max()).value == 6);
    CHECK(ends[0].receive_for(std::chrono::milliseconds(1)).code == Code::GaveUp);
    CHECK(ends[0].receive_for(std::chrono::hours::min()).code == Code::GaveUp);
    CHECK(ends[0].receive_for(std::chrono::seconds(0)).code == Code::GaveUp && ends[0].send_for(7, std::chrono::hours::min()) == Code::Ok);
    CHECK(ends[0].send_for(8, std::chrono::duration<double>(-1e300)) == Code::GaveUp && ends[0].try_receive().value == 7);
    CHECK(!std::strcmp(fak::text_of(Code::Busy), "others hold the file table, or all ends are lent"));
    CHECK(ends[0].close() == Code::Ok && ends[0].receive().code == Code::Closed);
}

static void parties_own_the_channel() {
    CHECK(fak::Channel<int>::open(0).code == Code::BadLimit && fak::Channel<int>::open(1, 0).code == Code::BadLimit);
    CHECK(fak::Channel<int>::open(1, SIZE_MAX).code == Code::BadLimit && fak::Channel<int>::open(1, 1022, 1).code == Code::BadLimit);
    fak::Sender<Owned> empty;
    Owned item = std::make_unique<Counted>(0, 1);
    CHECK(!empty && empty.send(std::move(item)) == Code::NoSeat && item != nullptr);
    CHECK(empty.close() == Code::NoSeat && empty.len().code == Code::NoSeat);
    CHECK(!fak::Receiver<int>() && fak::Receiver<int>().receive().code == Code::NoSeat && empty.is_closed().code == Code::NoSeat);
    auto made = fak::Channel<Owned>::open(2, 1, 1);
    CHECK(made);
    {
        auto [sender, receiver] = std::move(made.value);
        fak::Sender<Owned> copy = sender;
        const fak::Sender<Owned> &fixed = sender;
        CHECK(fixed.len().value == 0 && !fixed.is_closed().value);
        CHECK(sender.send_for(std::move(item), std::chrono::hours::max()) == Code::Ok && copy.len().value == 1);
        CHECK(copy.try_send(std::make_unique<Counted>(0, 2)) == Code::Ok);
        item = std::make_unique<Counted>(0, 3);
        CHECK(copy.try_send(std::move(item)) == Code::Full && copy.send_for(std::move(item), std::chrono::milliseconds(5)) == Code::GaveUp);
        sender = fak::Sender<Owned>();
        CHECK(!receiver.is_closed().value);
        copy = sender;
        CHECK(receiver.is_closed().value && receiver.receive().value->number == 1);
        CHECK(Counted::live == 2);
        fak::Receiver<Owned> other = std::move(receiver);
        CHECK(!receiver && other.try_receive().value->number == 2 && other.try_receive().code == Code::Closed);
        CHECK(other.receive_for(std::chrono::seconds(9)).code == Code::Closed);
    }
    made = fak::Channel<Owned>::open(2, 1, 1);
    CHECK(made.value.sender.send(std::move(item)) == Code::Ok && made.value.receiver.receive_for(std::chrono::seconds(9)));
    made.value.receiver = fak::Receiver<Owned>();
    item = std::make_unique<Counted>(0, 4);
    CHECK(made.value.sender.send(std::move(item)) == Code::Closed && item != nullptr);
    made = fak::Channel<Owned>::open(2, 1, 1);
    CHECK(made.value.sender.send(std::move(item)) == Code::Ok && Counted::live == 1);
    made = {Code::Ok, {}};
    CHECK(Counted::live == 0);
}

/* ---- Threads ---- */

/* More threads than ends send and receive owned items: each comes once. The channel closes when the last sender goes. */
static void threads_share_a_channel(int items) {
    constexpr int threads = 6;
    auto made = fak::Channel<Owned>::open(3, 2, 2);
    std::array<std::vector<std::atomic<int>>, threads> taken;
    std::vector<std::thread> running;
    for (auto &of_sender : taken)
        of_sender = std::vector<std::atomic<int>>(static_cast<std::size_t>(items));
    CHECK(made);
    for (int number = 0; number < threads; number++) {
        running.emplace_back([=, sender = made.value.sender] {
            for (int item = 0; item < items; item++)
                CHECK(sender.send(std::make_unique<Counted>(number, item)) == Code::Ok);
        });
        running.emplace_back([&taken, receiver = made.value.receiver] {
            while (auto got = receiver.receive())
                CHECK(taken[static_cast<std::size_t>(got.value->sender)][static_cast<std::size_t>(got.value->number)]++ == 0);
            CHECK(receiver.receive().code == Code::Closed);
        });
    }
    made.value.sender = fak::Sender<Owned>();
    for (auto &thread : running)
        thread.join();
    for (auto &of_sender : taken)
        for (auto &count : of_sender)
            CHECK(count == 1);
    CHECK(Counted::live == 0 && made.value.receiver.len().value == 0);
}

/* Threads call one sender at once, and one receiver. */
static void threads_share_handles(int items) {
    constexpr int threads = 3;
    const auto made = fak::Channel<int>::open(3, 2, 2);
    std::atomic<long> sum{0};
    std::vector<std::thread> running;
    for (int number = 0; number < threads; number++) {
        running.emplace_back([&] {
            for (int item = 1; item <= items; item++)
                CHECK(made.value.sender.send(item) == Code::Ok);
        });
        running.emplace_back([&] {
            for (int item = 1; item <= items; item++)
                sum += made.value.receiver.receive().value;
        });
    }
    for (auto &thread : running)
        thread.join();
    CHECK(sum == static_cast<long>(threads) * items * (items + 1) / 2 && made.value.receiver.try_receive().code == Code::Empty);
}

/* Two threads with an end each. */
static void ends_pass_items_between_threads(int items) {
    std::array<fak::ChannelEnd<Owned>, 2> ends;
    CHECK(fak::ChannelEnd<Owned>::open(ends, 4, UINT64_C(1) << 40) == Code::Ok);
    std::thread sender([=, end = std::move(ends[0])]() mutable {
        for (int item = 0; item < items; item++)
            CHECK(end.send(std::make_unique<Counted>(0, item)) == Code::Ok);
        CHECK(end.close() == Code::Ok);
    });
    for (int item = 0; item < items; item++)
        CHECK(ends[1].receive().value->number == item);
    CHECK(ends[1].receive().code == Code::Closed);
    sender.join();
}

int main(int count, char **words) {
    int items = count > 1 ? std::atoi(words[1]) : 20000;
    items_have_types();
    bytes_between_members_are_0();
    arrays_pass();
    ends_own_their_items();
    ends_of_an_own_waiting_leave();
    an_end_in_a_call_is_abandoned();
    ends_wait_until_a_time();
    parties_own_the_channel();
    threads_share_a_channel(items);
    threads_share_handles(items);
    ends_pass_items_between_threads(items);
    CHECK(Counted::live == 0);
    return 0;
}
