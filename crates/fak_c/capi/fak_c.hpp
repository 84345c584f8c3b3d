/* The objects of fak_c.h for C++17: handles that own their seat, and calls with types. Nothing here throws or waits, and only
 * `open` allocates.
 *
 * A handle is movable, also during a call, and cannot be copied. Its destructor leaves the object. While a call is open, or the seat
 * holds something of a room or a file table, leaving is refused; then the object is never freed, and the cell of an open call on a queue
 * stays closed: seats that need it get Code::NotYet forever. So end the call first.
 *
 * Each call is that of fak_c.h, whose comment says which codes it returns. But `open` returns Code::WrongState before all others, if a
 * handle has a seat. What C owes there is owed here too, except that the types
 * keep handles from being copied or written by hand. Never sleep on Code::Full, Code::Empty or Code::Busy: fak_c.h says why.
 *
 * An item is any trivially copyable type of at most 8 bytes that has a default constructor: a number, an enum, a pointer, a small struct.
 * What a pointer points to stays with the program; pointers that are in an object when its last seat leaves are not followed. */
#ifndef FAK_C_HPP
#define FAK_C_HPP

#if __cplusplus < 201703L
#error "fak_c.hpp and fak_channel.hpp need C++17"
#endif

#include "fak_c.h"

#include <cstddef>
#include <cstdint>
#include <cstring>
#include <iterator>
#include <type_traits>

#if defined(__has_builtin)
#if __has_builtin(__builtin_clear_padding)
#define FAK_C_CLEARS_PADDING 1
#endif
#endif

namespace fak {

/* What a call returned. */
enum class Code : std::int32_t {
    Ok = FAK_C_OK,
    NotYet = FAK_C_NOT_YET,
    Full = FAK_C_FULL,
    Empty = FAK_C_EMPTY,
    Closed = FAK_C_CLOSED,
    Worn = FAK_C_WORN,
    NoSeat = FAK_C_NO_SEAT,
    WrongState = FAK_C_WRONG_STATE,
    BadLimit = FAK_C_BAD_LIMIT,
    Memory = FAK_C_MEMORY,
    Parks = FAK_C_PARKS,
    Wakes = FAK_C_WAKES,
    Busy = FAK_C_BUSY,
    Sleeps = FAK_C_SLEEPS,
    GaveUp = FAK_C_GAVE_UP
};

/* The meaning of a code, in a few words. */
constexpr const char *text_of(Code code) noexcept {
    switch (code) {
    case Code::Ok:
        return "the call was made";
    case Code::NotYet:
        return "the call stays open";
    case Code::Full:
        return "the queue or the room is full";
    case Code::Empty:
        return "the queue is empty";
    case Code::Closed:
        return "the queue is shut";
    case Code::Worn:
        return "the stint is used up";
    case Code::NoSeat:
        return "the handle has no seat";
    case Code::WrongState:
        return "the seat is in another state";
    case Code::BadLimit:
        return "a number is out of range";
    case Code::Memory:
        return "out of memory";
    case Code::Parks:
        return "the down parks its item";
    case Code::Wakes:
        return "the up owes a wake";
    case Code::Busy:
        return "others hold the file table, or all ends are lent";
    case Code::Sleeps:
        return "the call sleeps";
    case Code::GaveUp:
        return "the call was given up";
    }
    return "no code";
}

/* A code, and a value, which is read as `value`: this is no std::optional. The value is zero unless the call's comment says that it is
 * written. */
template <class T> struct [[nodiscard]] Answer {
    Code code;
    T value;

    /* Whether the call was made. */
    explicit operator bool() const noexcept { return code == Code::Ok; }
};

namespace details {

/* Copies an item to words. What lies between its members is 0 there. A compiler that can't clear it, such as clang 14, copies what was
 * there, which the program may never have written. */
template <class T> void copy_to(void *words, const T &item) noexcept {
    alignas(T) unsigned char bytes[sizeof item];
    std::memcpy(bytes, &item, sizeof item);
#ifdef FAK_C_CLEARS_PADDING
    __builtin_clear_padding(reinterpret_cast<T *>(bytes));
#endif
    std::memcpy(words, bytes, sizeof item);
}

template <class T> std::uint64_t word_of(T item) noexcept {
    static_assert(std::is_trivially_copyable_v<T> && sizeof(T) <= 8, "an item is at most 8 bytes, which are copied");
    std::uint64_t word = 0;
    copy_to(&word, item);
    return word;
}

template <class T> T item_of(std::uint64_t word) noexcept {
    static_assert(std::is_default_constructible_v<T>, "an item is written to a new one");
    T item{};
    std::memcpy(&item, &word, sizeof item);
    return item;
}

/* Tells ThreadSanitizer what a pointer hands over. */
template <class T> void gives([[maybe_unused]] T item) noexcept {
    if constexpr (std::is_pointer_v<T> && !std::is_function_v<std::remove_pointer_t<T>>)
        FAK_C_GIVES(const_cast<void *>(static_cast<const volatile void *>(item)));
}

template <class T> T gets(T item) noexcept {
    if constexpr (std::is_pointer_v<T> && !std::is_function_v<std::remove_pointer_t<T>>)
        FAK_C_GETS(const_cast<void *>(static_cast<const volatile void *>(item)));
    return item;
}

} // namespace details

/* A handle of any kind. It owns a seat, or nothing. */
class Handle {
public:
    Handle() noexcept = default;
    Handle(const Handle &) = delete;
    Handle &operator=(const Handle &) = delete;
    Handle(Handle &&other) noexcept { fak_c_move(&other.seat, &seat); }
    Handle &operator=(Handle &&other) noexcept {
        if (this != &other) {
            give_up();
            fak_c_move(&other.seat, &seat);
        }
        return *this;
    }
    ~Handle() { fak_c_leave(&seat); }

    /* Leaves the object: Ok, NoSeat, or WrongState if the seat is in a call or holds something. */
    Code leave() noexcept { return Code{fak_c_leave(&seat)}; }

    /* Whether it owns a seat. */
    explicit operator bool() const noexcept { return seat.at != nullptr; }

    /* The handle as C sees it. */
    fak_c_seat *get_handle() noexcept { return &seat; }

protected:
    /* Opens an object over these handles. WrongState unless all of them are empty. */
    template <class Seats, class Open> static Code open_all(Seats &seats, Open open) noexcept {
        fak_c_seat none{};
        return are_empty(seats) ? Code{open(handles_of(seats, none), std::size(seats))} : Code::WrongState;
    }

    template <class Seats> static bool are_empty(const Seats &seats) noexcept {
        for (const auto &one : seats)
            if (one)
                return false;
        return true;
    }

    /* An array of seats as C sees it. If there are none, this handle: the pointer is not null. */
    template <class Seats> static fak_c_seat *handles_of(Seats &seats, fak_c_seat &none) noexcept {
        auto *first = std::data(seats);
        using Seat = std::remove_pointer_t<decltype(first)>;
        static_assert(sizeof(Seat) == sizeof(fak_c_seat) && std::is_standard_layout_v<Seat>, "an array of seats is one of handles");
        return std::size(seats) != 0 ? reinterpret_cast<fak_c_seat *>(first) : &none;
    }

    /* Makes a call that writes one value. */
    template <class Value, class Call, class... Words> Answer<Value> value_of(Call call, Words... words) noexcept {
        Value value{};
        Code code{call(&seat, words..., &value)};
        return {code, value};
    }

    fak_c_seat seat{};

private:
    /* A seat that can't leave is abandoned, and its object with it. */
    void give_up() noexcept {
        if (fak_c_leave(&seat) == FAK_C_WRONG_STATE)
            seat = fak_c_seat{};
    }
};

/* A seat of a bounded queue, first in first out. */
template <class T> class QueueSeat : public Handle {
public:
    enum class State : std::uint32_t { Idle = FAK_C_IDLE, Inserting = FAK_C_INSERTING, Deleting = FAK_C_DELETING };

    /* The state, the ticket of the open call, and how many calls are left of the stint. */
    struct Standing {
        State state;
        std::uint64_t ticket;
        std::uint64_t left;
    };

    /* What one load found. */
    struct InUse {
        std::int64_t cells;
        bool is_shut;
    };

    /* An item with its ticket. */
    struct Taken {
        std::uint64_t ticket;
        T item;
    };

    /* Opens a queue of `size` cells with a seat for each handle of an array, a std::array or a std::vector. */
    template <class Seats> static Code open(Seats &seats, std::uint64_t size, std::uint64_t stint) noexcept {
        return open_all(seats, [=](fak_c_seat *first, std::size_t n) { return fak_c_open(first, n, size, stint); });
    }

    /* A claim and the first try. The ticket is written with Ok and NotYet; after NotYet `try_put` is next. */
    Answer<std::uint64_t> put(T item) noexcept {
        details::gives(item);
        return value_of<std::uint64_t>(fak_c_insert, details::word_of(item));
    }
    Answer<std::uint64_t> claim_put(T item) noexcept {
        details::gives(item);
        return value_of<std::uint64_t>(fak_c_claim_insert, details::word_of(item));
    }
    Code try_put() noexcept { return Code{fak_c_try_fill(&seat)}; }

    /* A claim and the first try. The ticket is written with Ok and NotYet, the item with Ok; after NotYet `try_get` is next. */
    Answer<Taken> get() noexcept {
        std::uint64_t ticket = 0, word = 0;
        Code code{fak_c_delete(&seat, &ticket, &word)};
        return {code, {ticket, taken(code, word)}};
    }
    Answer<std::uint64_t> claim_get() noexcept { return value_of<std::uint64_t>(fak_c_claim_delete); }
    Answer<T> try_get() noexcept {
        std::uint64_t word = 0;
        Code code{fak_c_try_take(&seat, &word)};
        return {code, taken(code, word)};
    }

    /* Shuts the queue. Returns whether it was open. */
    Answer<bool> shut() noexcept { return value_of<bool>(fak_c_shut); }

    Code pause() noexcept { return Code{fak_c_pause(&seat)}; }

    /* The items that are ready, below 0 while deletions are refused. */
    Answer<std::int64_t> count() noexcept { return value_of<std::int64_t>(fak_c_count); }

    /* The cells in use, and whether the queue is shut. */
    Answer<InUse> in_use() noexcept {
        std::int64_t cells = 0;
        bool is_shut = false;
        Code code{fak_c_in_use(&seat, &cells, &is_shut)};
        return {code, {cells, is_shut}};
    }

    /* Whether the queue is shut and has no cell in use: no deletion finds an item from then on. */
    Answer<bool> drained() noexcept { return value_of<bool>(fak_c_drained); }

    Answer<Standing> state() noexcept {
        std::uint32_t state = 0;
        std::uint64_t ticket = 0, left = 0;
        Code code{fak_c_state(&seat, &state, &ticket, &left)};
        return {code, {State{state}, ticket, left}};
    }

private:
    static T taken(Code code, std::uint64_t word) noexcept {
        return code == Code::Ok ? details::gets(details::item_of<T>(word)) : T{};
    }
};

/* A bundle: several seats of one queue, which insert and delete together by bursts. At most `most` items go in one burst, since a call
 * keeps their words on its stack: 8 bytes each. */
template <class T, std::size_t most = 64> class Bundle : public Handle {
public:
    using State = typename QueueSeat<T>::State;

    /* The state, the first ticket of the burst that has not ended and how many have not, the seats of the bundle, and the tickets that
     * are left. */
    struct Standing {
        State state;
        std::uint64_t ticket;
        std::uint64_t open;
        std::uint64_t width;
        std::uint64_t left;
    };

    /* The items that were claimed have `count` tickets from the first on. */
    struct Burst {
        std::uint64_t ticket;
        std::size_t count;
    };

    /* The same, and how many were taken out. */
    struct TakenBurst {
        std::uint64_t ticket;
        std::size_t count;
        std::size_t taken;
    };

    /* How many were taken out now, and how many are still claimed. */
    struct Rest {
        std::size_t taken;
        std::size_t left;
    };

    /* Opens a queue of `size` cells with a seat for each handle of the first array and a bundle of `width` seats for each of the second. */
    template <class Seats, class Bundles>
    static Code open(Seats &seats, Bundles &bundles, std::uint64_t width, std::uint64_t size, std::uint64_t stint) noexcept {
        fak_c_seat none[2]{};
        if (!are_empty(seats) || !are_empty(bundles))
            return Code::WrongState;
        return Code{fak_c_open_bundles(
            handles_of(seats, none[0]), std::size(seats), handles_of(bundles, none[1]), std::size(bundles), width, size, stint)};
    }

    /* The same with bundles only. */
    template <class Bundles>
    static Code open(Bundles &bundles, std::uint64_t width, std::uint64_t size, std::uint64_t stint) noexcept {
        fak_c_seat no_seats{};
        return open_all(bundles, [&](fak_c_seat *first, std::size_t m) {
            return fak_c_open_bundles(&no_seats, 0, first, m, width, size, stint);
        });
    }

    /* A claim for the first of n items, and the first tries. The burst is written with Ok and NotYet, and its items are taken then; after
     * NotYet `try_put_burst` is next. */
    Answer<Burst> put_burst(const T *items, std::size_t n) noexcept {
        std::uint64_t words[most], ticket = 0, count = 0;
        n = n < most ? n : most;
        for (std::size_t i = 0; i < n; i++) {
            details::gives(items[i]);
            words[i] = details::word_of(items[i]);
        }
        Code code{fak_c_insert_burst(&seat, words, n, &ticket, &count)};
        return {code, {ticket, static_cast<std::size_t>(count)}};
    }

    /* How many items are still kept. */
    Answer<std::size_t> try_put_burst() noexcept {
        std::uint64_t left = 0;
        Code code{fak_c_try_fill_burst(&seat, &left)};
        return {code, static_cast<std::size_t>(left)};
    }

    /* A claim of at most n items, and the first tries. With Ok and NotYet the burst is written, and the items that were taken out are
     * written to the first places; after NotYet `try_get_burst` is next. */
    Answer<TakenBurst> get_burst(T *items, std::size_t n) noexcept {
        std::uint64_t words[most], ticket = 0, count = 0, taken = 0;
        n = prepare(words, n);
        Code code{fak_c_delete_burst(&seat, words, n, &ticket, &count, &taken)};
        write(items, words, taken);
        return {code, {ticket, static_cast<std::size_t>(count), static_cast<std::size_t>(taken)}};
    }

    /* Takes out further items, at most n. One that has left its cell and finds no place waits in the bundle for the next call. */
    Answer<Rest> try_get_burst(T *items, std::size_t n) noexcept {
        std::uint64_t words[most], taken = 0, left = 0;
        n = prepare(words, n);
        Code code{fak_c_try_take_burst(&seat, words, n, &taken, &left)};
        write(items, words, taken);
        return {code, {static_cast<std::size_t>(taken), static_cast<std::size_t>(left)}};
    }

    Answer<Standing> state() noexcept {
        std::uint32_t state = 0;
        std::uint64_t ticket = 0, open = 0, width = 0, left = 0;
        Code code{fak_c_bundle_state(&seat, &state, &ticket, &open, &width, &left)};
        return {code, {State{state}, ticket, open, width, left}};
    }

private:
    static_assert(most >= 1, "a burst has an item");

    /* Initialises the words that C writes. Returns how many these are: n, but no more than there are. */
    static std::size_t prepare(std::uint64_t *words, std::size_t n) noexcept {
        n = n < most ? n : most;
        std::memset(words, 0, n * sizeof *words);
        return n;
    }

    static void write(T *items, const std::uint64_t *words, std::uint64_t taken) noexcept {
        for (std::uint64_t i = 0; i < taken; i++)
            items[i] = details::gets(details::item_of<T>(words[i]));
    }
};

/* A seat of a semaphore. Its items are what waits, for instance the threads of a kernel. */
template <class T> class SemSeat : public Handle {
public:
    enum class State : std::uint32_t { Idle = FAK_C_SEM_IDLE, Parking = FAK_C_SEM_PARKING, Waking = FAK_C_SEM_WAKING };

    struct Standing {
        State state;
        std::uint64_t left;
    };

    template <class Seats> static Code open(Seats &seats, std::uint64_t start, std::uint64_t size, std::uint64_t stint) noexcept {
        return open_all(seats, [=](fak_c_seat *first, std::size_t n) { return fak_c_sem_open(first, n, start, size, stint); });
    }

    /* Ok if the down passed; Parks if `try_park` is next. */
    Code claim_down(T item) noexcept {
        details::gives(item);
        return Code{fak_c_sem_claim_down(&seat, details::word_of(item))};
    }
    Code try_park() noexcept { return Code{fak_c_sem_try_park(&seat)}; }

    /* Ok if the up woke no item; Wakes if `try_wake` is next. */
    Code claim_up() noexcept { return Code{fak_c_sem_claim_up(&seat)}; }
    Answer<T> try_wake() noexcept {
        std::uint64_t word = 0;
        Code code{fak_c_sem_try_wake(&seat, &word)};
        return {code, code == Code::Ok ? details::gets(details::item_of<T>(word)) : T{}};
    }

    Answer<Standing> state() noexcept {
        std::uint32_t state = 0;
        std::uint64_t left = 0;
        Code code{fak_c_sem_state(&seat, &state, &left)};
        return {code, {State{state}, left}};
    }
};

/* A seat of a room: a count from 0 to a bound. */
class RoomSeat : public Handle {
public:
    struct Standing {
        std::uint64_t held;
        std::uint64_t left;
    };

    template <class Seats> static Code open(Seats &seats, std::uint64_t bound, std::uint64_t stint) noexcept {
        return open_all(seats, [=](fak_c_seat *first, std::size_t n) { return fak_c_room_open(first, n, bound, stint); });
    }

    /* The count before, also with Full. */
    Answer<std::int64_t> claim(std::uint64_t amount) noexcept { return value_of<std::int64_t>(fak_c_room_tir, amount); }
    Answer<std::int64_t> release(std::uint64_t amount) noexcept { return value_of<std::int64_t>(fak_c_room_release, amount); }

    Answer<Standing> state() noexcept {
        std::uint64_t held = 0, left = 0;
        Code code{fak_c_room_state(&seat, &held, &left)};
        return {code, {held, left}};
    }
};

/* A seat of a credit: a count that moves by 1. */
class CreditSeat : public Handle {
public:
    struct Standing {
        std::int64_t value;
        std::uint64_t left;
    };

    template <class Seats> static Code open(Seats &seats, std::uint64_t start, std::uint64_t stint) noexcept {
        return open_all(seats, [=](fak_c_seat *first, std::size_t n) { return fak_c_credit_open(first, n, start, stint); });
    }

    /* The count before. */
    Answer<std::int64_t> debit() noexcept { return value_of<std::int64_t>(fak_c_credit_debit); }
    Answer<std::int64_t> credit() noexcept { return value_of<std::int64_t>(fak_c_credit_credit); }

    Answer<Standing> state() noexcept {
        std::int64_t value = 0;
        std::uint64_t left = 0;
        Code code{fak_c_credit_value(&seat, &value, &left)};
        return {code, {value, left}};
    }
};

/* A seat of a file table. */
class FileSeat : public Handle {
public:
    enum class Hold : std::uint32_t { Nothing = FAK_C_FILES_NOTHING, Reading = FAK_C_FILES_READING, Writing = FAK_C_FILES_WRITING };

    struct Entry {
        std::uint64_t inode;
        std::uint64_t uses;
    };

    template <class Seats> static Code open(Seats &seats, std::uint64_t entries, std::uint64_t stint) noexcept {
        return open_all(seats, [=](fak_c_seat *first, std::size_t n) { return fak_c_files_open(first, n, entries, stint); });
    }

    /* With Busy, what was left of the number of seats. */
    Answer<std::int64_t> try_read() noexcept { return value_of<std::int64_t>(fak_c_files_try_read); }
    Answer<std::int64_t> try_write() noexcept { return value_of<std::int64_t>(fak_c_files_try_write); }

    Answer<Entry> get(std::uint64_t entry) noexcept {
        std::uint64_t inode = 0, uses = 0;
        Code code{fak_c_files_get(&seat, entry, &inode, &uses)};
        return {code, {inode, uses}};
    }
    Code set_inode(std::uint64_t entry, std::uint64_t to) noexcept { return Code{fak_c_files_set_inode(&seat, entry, to)}; }
    Code set_uses(std::uint64_t entry, std::uint64_t to) noexcept { return Code{fak_c_files_set_uses(&seat, entry, to)}; }

    /* Gives the hold back. */
    Code end() noexcept { return Code{fak_c_files_end(&seat)}; }

    Answer<Hold> hold() noexcept {
        std::uint32_t hold = 0;
        Code code{fak_c_files_hold(&seat, &hold)};
        return {code, Hold{hold}};
    }
};

} // namespace fak

#endif
