/* The channel of fak_channel.h for C++17, with typed items: ends, each for one thread, and senders and receivers that any number of
 * threads copy. Compile fak_channel.c, which is C, or link libfak_channel.a. Nothing here throws.
 *
 * An item is any trivially copyable type of at most 32 bytes that has a default constructor, or a std::unique_ptr<T> or
 * std::unique_ptr<T[]>, which the channel owns until it is received. What is
 * left in a channel when its last handle goes is deleted, unless this is an end that has used up its stint. A refused item stays with the
 * caller. Send a larger object, or one that owns something, as a std::unique_ptr.
 *
 * A handle is movable and owns its end. Each call is that of fak_channel.h, whose comment says which codes it returns. */
#ifndef FAK_CHANNEL_HPP
#define FAK_CHANNEL_HPP

#include "fak_c.hpp"
#include "fak_channel.h"

#include <atomic>
#include <chrono>
#include <cstddef>
#include <cstdint>
#include <cstring>
#include <memory>
#include <new>
#include <type_traits>
#include <utility>

namespace fak {

using Clock = std::chrono::steady_clock;

namespace details {

/* How an item travels: `pack` copies its bits, `sent` is called once the channel has them, and `unpack` makes an item of them. */
template <class T> struct Cargo {
    static_assert(std::is_trivially_copyable_v<T> && sizeof(T) <= sizeof(fak_channel_item),
        "an item is at most 32 bytes, which are copied, or a std::unique_ptr");
    static_assert(std::is_default_constructible_v<T>, "an item is written to a new one");

    static fak_channel_item pack(const T &item) noexcept {
        fak_channel_item packed{};
        copy_to(&packed, item);
        return packed;
    }
    static void sent(const T &) noexcept {}
    static T unpack(const fak_channel_item &packed) noexcept {
        T item{};
        std::memcpy(&item, &packed, sizeof item);
        return item;
    }
};

/* A pointer to an object or, as T[], to an array. */
template <class T> struct Cargo<std::unique_ptr<T>> {
    static fak_channel_item pack(const std::unique_ptr<T> &item) noexcept { return fak_channel_of_pointer(item.get()); }
    static void sent(std::unique_ptr<T> &item) noexcept { static_cast<void>(item.release()); }
    static std::unique_ptr<T> unpack(const fak_channel_item &packed) noexcept {
        return std::unique_ptr<T>(static_cast<typename std::unique_ptr<T>::pointer>(fak_channel_pointer_of(&packed)));
    }
};

/* Deletes an item that nobody will receive. */
template <class T> void drop(void *, const fak_channel_item *item) noexcept { static_cast<void>(Cargo<T>::unpack(*item)); }

/* A time of std::chrono::steady_clock, which is CLOCK_MONOTONIC, in nanoseconds. */
inline std::uint64_t nanoseconds_of(Clock::time_point time) noexcept {
    auto count = std::chrono::duration_cast<std::chrono::nanoseconds>(time.time_since_epoch()).count();
    return count > 0 ? static_cast<std::uint64_t>(count) : 0;
}

/* The time that is this long from now, and now if that is past. Above a hundred years it is the last one: the sum might be too large. */
template <class Duration> Clock::time_point time_after(Duration duration) noexcept {
    if (duration <= Duration::zero())
        return Clock::now();
    bool is_soon = std::chrono::duration<double>(duration) < std::chrono::hours(876000);
    return is_soon ? Clock::now() + std::chrono::duration_cast<Clock::duration>(duration) : Clock::time_point::max();
}

/* Sends by this call. */
template <class T, class Call> Code send_by(T &item, Call call) noexcept {
    static_assert(!std::is_const_v<T> || std::is_copy_constructible_v<T>, "an item that cannot be copied is moved: send(std::move(item))");
    fak_channel_item packed = Cargo<std::remove_const_t<T>>::pack(item);
    Code code{call(&packed)};
    if constexpr (!std::is_const_v<T>)
        if (code == Code::Ok)
            Cargo<T>::sent(item);
    return code;
}

template <class T, class Call> Answer<T> receive_by(Call call) noexcept {
    fak_channel_item packed{};
    Code code{call(&packed)};
    return {code, code == Code::Ok ? Cargo<T>::unpack(packed) : T{}};
}

/* The calls of a class that has `send_packed`, `receive_packed` and the two tries, which return a code of C. */
struct Calls {
    template <class Self, class T> static Code send(Self &self, T &item, std::uint64_t deadline) noexcept {
        return send_by(item, [&self, deadline](const fak_channel_item *packed) { return self.send_packed(packed, deadline); });
    }
    template <class Self, class T> static Code try_send(Self &self, T &item) noexcept {
        return send_by(item, [&self](const fak_channel_item *packed) { return self.try_send_packed(packed); });
    }
    template <class T, class Self> static Answer<T> receive(Self &self, std::uint64_t deadline) noexcept {
        return receive_by<T>([&self, deadline](fak_channel_item *packed) { return self.receive_packed(packed, deadline); });
    }
    template <class T, class Self> static Answer<T> try_receive(Self &self) noexcept {
        return receive_by<T>([&self](fak_channel_item *packed) { return self.try_receive_packed(packed); });
    }
};

/* The calls that send, of a class `Self`. Only with Ok the item is moved from. */
template <class Self, class T> class Sends {
public:
    Code send(T &&item) noexcept { return Calls::send(self(), item, FAK_CHANNEL_NEVER); }
    Code send(const T &item) noexcept { return Calls::send(self(), item, FAK_CHANNEL_NEVER); }
    Code try_send(T &&item) noexcept { return Calls::try_send(self(), item); }
    Code try_send(const T &item) noexcept { return Calls::try_send(self(), item); }
    Code send_until(T &&item, Clock::time_point time) noexcept { return Calls::send(self(), item, nanoseconds_of(time)); }
    Code send_until(const T &item, Clock::time_point time) noexcept { return Calls::send(self(), item, nanoseconds_of(time)); }
    template <class Duration> Code send_for(T &&item, Duration duration) noexcept {
        return send_until(std::move(item), time_after(duration));
    }
    template <class Duration> Code send_for(const T &item, Duration duration) noexcept {
        return send_until(item, time_after(duration));
    }

private:
    Self &self() noexcept { return static_cast<Self &>(*this); }
};

/* The same of a class whose calls leave it as it is: any number of threads call a constant one at once. */
template <class Self, class T> class Sends<const Self, T> {
public:
    Code send(T &&item) const noexcept { return Calls::send(self(), item, FAK_CHANNEL_NEVER); }
    Code send(const T &item) const noexcept { return Calls::send(self(), item, FAK_CHANNEL_NEVER); }
    Code try_send(T &&item) const noexcept { return Calls::try_send(self(), item); }
    Code try_send(const T &item) const noexcept { return Calls::try_send(self(), item); }
    Code send_until(T &&item, Clock::time_point time) const noexcept { return Calls::send(self(), item, nanoseconds_of(time)); }
    Code send_until(const T &item, Clock::time_point time) const noexcept { return Calls::send(self(), item, nanoseconds_of(time)); }
    template <class Duration> Code send_for(T &&item, Duration duration) const noexcept {
        return send_until(std::move(item), time_after(duration));
    }
    template <class Duration> Code send_for(const T &item, Duration duration) const noexcept {
        return send_until(item, time_after(duration));
    }

private:
    const Self &self() const noexcept { return static_cast<const Self &>(*this); }
};

/* The calls that receive, likewise. The item is that of T{} if the code is not Ok. */
template <class Self, class T> class Receives {
public:
    Answer<T> receive() noexcept { return Calls::receive<T>(self(), FAK_CHANNEL_NEVER); }
    Answer<T> try_receive() noexcept { return Calls::try_receive<T>(self()); }
    Answer<T> receive_until(Clock::time_point time) noexcept { return Calls::receive<T>(self(), nanoseconds_of(time)); }
    template <class Duration> Answer<T> receive_for(Duration duration) noexcept { return receive_until(time_after(duration)); }

private:
    Self &self() noexcept { return static_cast<Self &>(*this); }
};

template <class Self, class T> class Receives<const Self, T> {
public:
    Answer<T> receive() const noexcept { return Calls::receive<T>(self(), FAK_CHANNEL_NEVER); }
    Answer<T> try_receive() const noexcept { return Calls::try_receive<T>(self()); }
    Answer<T> receive_until(Clock::time_point time) const noexcept { return Calls::receive<T>(self(), nanoseconds_of(time)); }
    template <class Duration> Answer<T> receive_for(Duration duration) const noexcept { return receive_until(time_after(duration)); }

private:
    const Self &self() const noexcept { return static_cast<const Self &>(*this); }
};

} // namespace details

/* ---- Ends ---- */

/* An end of a channel, for one thread at a time. It is empty, or owns a seat. */
template <class T> class ChannelEnd : public details::Sends<ChannelEnd<T>, T>, public details::Receives<ChannelEnd<T>, T> {
public:
    ChannelEnd() noexcept = default;
    ChannelEnd(const ChannelEnd &) = delete;
    ChannelEnd &operator=(const ChannelEnd &) = delete;
    ChannelEnd(ChannelEnd &&other) noexcept { fak_channel_move(&other.end, &end); }
    ChannelEnd &operator=(ChannelEnd &&other) noexcept {
        if (this != &other) {
            give_up();
            fak_channel_move(&other.end, &end);
        }
        return *this;
    }
    ~ChannelEnd() { static_cast<void>(leave()); }

    /* Opens a channel of `size` cells with an end for each element of an array, a std::array or a std::vector, all empty before. */
    template <class Ends> static Code open(Ends &ends, std::uint64_t size, std::uint64_t stint) noexcept {
        static_assert(sizeof(ChannelEnd) == sizeof(fak_channel_end) && std::is_standard_layout_v<ChannelEnd>);
        fak_channel_end none{};
        ChannelEnd *first = std::data(ends);
        auto *all = std::size(ends) != 0 ? reinterpret_cast<fak_channel_end *>(first) : &none;
        return Code{fak_channel_open_ends(all, std::size(ends), size, stint)};
    }

    Code close() noexcept { return Code{fak_channel_close(&end)}; }

    /* The items that are ready. */
    Answer<std::uint64_t> len() noexcept {
        std::uint64_t items = 0;
        Code code{fak_channel_len(&end.seat, &items)};
        return {code, items};
    }
    Answer<bool> is_closed() noexcept {
        bool is_closed = false;
        Code code{fak_channel_is_closed(&end.seat, &is_closed)};
        return {code, is_closed};
    }

    /* Gives up the end, and does not close. The last one deletes what is left, as long as its stint lasts, and if `seats` of a waiting of
     * your own is not 0. */
    Code leave() noexcept {
        Code code{fak_channel_leave_with(&end, details::drop<T>, nullptr)};
        return code == Code::BadLimit ? Code{fak_channel_leave(&end)} : code;
    }

    /* Whether it owns a seat. */
    explicit operator bool() const noexcept { return end.seat.at != nullptr; }

    /* The end as C sees it. */
    fak_channel_end *get_end() noexcept { return &end; }

private:
    friend struct details::Calls;

    std::int32_t send_packed(const fak_channel_item *packed, std::uint64_t deadline) noexcept {
        return fak_channel_send_until(&end, packed, deadline);
    }
    std::int32_t try_send_packed(const fak_channel_item *packed) noexcept { return fak_channel_try_send(&end, packed); }
    std::int32_t receive_packed(fak_channel_item *packed, std::uint64_t deadline) noexcept {
        return fak_channel_receive_until(&end, packed, deadline);
    }
    std::int32_t try_receive_packed(fak_channel_item *packed) noexcept { return fak_channel_try_receive(&end, packed); }

    /* An end in a call by steps can't leave. It is abandoned, and its channel with it. */
    void give_up() noexcept {
        if (leave() == Code::WrongState)
            end = fak_channel_end{};
    }

    fak_channel_end end{};
};

/* ---- Senders and receivers ---- */

namespace details {

/* The shared channel of senders and receivers, which count themselves. */
template <class T> struct Shared {
    fak_channel_shared channel{};
    std::unique_ptr<fak_channel_end[]> ends;
    std::atomic<std::size_t> senders{1}, receivers{1}, owners{2};

    ~Shared() {
        if (channel.ends != nullptr)
            fak_channel_shared_leave_with(&channel, drop<T>, nullptr);
    }
};

/* A sender or a receiver. The last of its kind closes the channel, and the last of both frees it. */
template <class T, std::atomic<std::size_t> Shared<T>::*Kind> class Party {
public:
    Party() noexcept = default;
    Party(const Party &other) noexcept : shared(other.shared) {
        if (shared != nullptr) {
            (shared->*Kind)++;
            shared->owners++;
        }
    }
    Party(Party &&other) noexcept : shared(std::exchange(other.shared, nullptr)) {}
    Party &operator=(Party other) noexcept {
        std::swap(shared, other.shared);
        return *this;
    }
    ~Party() {
        if (shared == nullptr)
            return;
        if (--(shared->*Kind) == 0)
            static_cast<void>(close());
        /* This must follow the close: another thread may delete the channel from here on. */
        if (--shared->owners == 0)
            delete shared;
    }

    Code close() const noexcept { return shared != nullptr ? Code{fak_channel_shared_close(&shared->channel)} : Code::NoSeat; }

    /* The items that are ready. */
    Answer<std::uint64_t> len() const noexcept {
        std::uint64_t items = 0;
        Code code = shared != nullptr ? Code{fak_channel_shared_len(&shared->channel, &items)} : Code::NoSeat;
        return {code, items};
    }
    Answer<bool> is_closed() const noexcept {
        bool is_closed = false;
        Code code = shared != nullptr ? Code{fak_channel_shared_is_closed(&shared->channel, &is_closed)} : Code::NoSeat;
        return {code, is_closed};
    }

    /* Whether it has a channel. */
    explicit operator bool() const noexcept { return shared != nullptr; }

protected:
    /* Makes this call of the channel. */
    template <class Call, class... Words> std::int32_t make(Call call, Words... words) const noexcept {
        return shared != nullptr ? call(&shared->channel, words...) : static_cast<std::int32_t>(FAK_C_NO_SEAT);
    }

    Shared<T> *shared = nullptr;
};

} // namespace details

template <class T> struct Channel;

/* Sends to a channel. Copy it for each thread: when the last sender goes, the channel is closed. Any number of threads may call one sender
 * at once, as long as none assigns to it. */
template <class T>
class Sender : public details::Party<T, &details::Shared<T>::senders>, public details::Sends<const Sender<T>, T> {
public:
    Sender() noexcept = default;

private:
    friend struct Channel<T>;
    friend struct details::Calls;

    std::int32_t send_packed(const fak_channel_item *packed, std::uint64_t deadline) const noexcept {
        return this->make(fak_channel_shared_send_until, packed, deadline);
    }
    std::int32_t try_send_packed(const fak_channel_item *packed) const noexcept {
        return this->make(fak_channel_shared_try_send, packed);
    }
};

/* Receives from a channel. Copy it for each thread: when the last receiver goes, the channel is closed. Calls at once as of a sender. */
template <class T>
class Receiver : public details::Party<T, &details::Shared<T>::receivers>, public details::Receives<const Receiver<T>, T> {
public:
    Receiver() noexcept = default;

private:
    friend struct Channel<T>;
    friend struct details::Calls;

    std::int32_t receive_packed(fak_channel_item *packed, std::uint64_t deadline) const noexcept {
        return this->make(fak_channel_shared_receive_until, packed, deadline);
    }
    std::int32_t try_receive_packed(fak_channel_item *packed) const noexcept {
        return this->make(fak_channel_shared_try_receive, packed);
    }
};

/* The first sender and the first receiver of a channel. */
template <class T> struct Channel {
    Sender<T> sender;
    Receiver<T> receiver;

    /* Opens a channel of `size` cells. At most `sends` sends and `receives` receives go on at the same time, or sleep in the channel
     * itself; others wait until one of these ends (fak_channel.h). Ok, BadLimit or Memory. */
    static Answer<Channel> open(std::uint64_t size, std::size_t sends = 8, std::size_t receives = 8) noexcept {
        if (sends >= FAK_C_MOST_SEATS || receives >= FAK_C_MOST_SEATS)
            return {Code::BadLimit, {}};
        std::size_t count = FAK_CHANNEL_SHARED_ENDS(sends, receives);
        std::unique_ptr<details::Shared<T>> shared(new (std::nothrow) details::Shared<T>);
        std::unique_ptr<fak_channel_end[]> ends(new (std::nothrow) fak_channel_end[count]());
        if (shared == nullptr || ends == nullptr)
            return {Code::Memory, {}};
        Code code{fak_channel_shared_open(&shared->channel, ends.get(), sends, receives, size, FAK_C_MOST_CALLS / count)};
        if (code != Code::Ok)
            return {code, {}};
        shared->ends = std::move(ends);
        Channel made;
        made.sender.shared = shared.get();
        made.receiver.shared = shared.release();
        return {Code::Ok, std::move(made)};
    }
};

} // namespace fak

#endif
