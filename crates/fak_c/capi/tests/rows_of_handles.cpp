/* The calls of fak_c.hpp and fak_channel.hpp by the names in C that rows have: a line for each. The value of an answer is zero where the
 * call in C writes nothing. */
#include "fak_c.hpp"
#include "fak_channel.hpp"
#include "rows.h"


namespace {

using Item = fak_channel_item;
using Queue = fak::QueueSeat<std::uint64_t>;
using Bundle = fak::Bundle<std::uint64_t>;
using Sem = fak::SemSeat<std::uint64_t>;
using Room = fak::RoomSeat;
using Credit = fak::CreditSeat;
using File = fak::FileSeat;
using End = fak::ChannelEnd<Item>;

/* The handles of each type, by the index in a row. */
template <class Seat> Seat handles[HANDLES];
fak::Sender<Item> senders[26];
fak::Receiver<Item> receivers[26];

template <class Seat> Seat &of(const row *self) { return handles<Seat>[self->index]; }

/* Handles next to each other. */
template <class Seat> struct Some {
    Seat *first;
    std::size_t count;
    Seat *data() const { return first; }
    std::size_t size() const { return count; }
    Seat *begin() const { return first; }
    Seat *end() const { return first + count; }
};

std::int32_t coded(fak::Code code) { return static_cast<std::int32_t>(code); }

template <class Seat, class... Numbers> std::int32_t opens(row *self, Numbers... numbers) {
    Some<Seat> seats{&of<Seat>(self), self->count};
    return coded(Seat::open(seats, numbers...));
}

std::int32_t open_bundles(row *self) {
    Some<Queue> seats{&of<Queue>(self), self->count};
    Some<Bundle> bundles{&handles<Bundle>[self->other_index], self->other_count};
    return coded(Bundle::open(seats, bundles, self->in[0], self->in[1], self->in[2]));
}

/* Notes a value of an answer, unless it is zero and the row has none. What the row has as `-` may be anything. */
template <class Value> void give(row *self, std::size_t at, Value value) {
    bool is_wanted = at < self->wanted_count;
    if (is_wanted && std::strcmp(self->wanted[at], "-") == 0)
        return;
    if constexpr (std::is_same_v<Value, bool>)
        *truth_at(self, at) = is_wanted ? value : !value;
    else if (std::uint64_t word = static_cast<std::uint64_t>(value); !is_wanted && word == 0)
        return;
    else if constexpr (std::is_enum_v<Value>)
        *state_at(self, at) = static_cast<std::uint32_t>(value);
    else
        *word_at(self, at) = word;
}

/* Notes the value of an answer, or these members of it, and returns its code. */
template <class Answer, class... Members> std::int32_t gives(row *self, const Answer &answer, Members... members) {
    std::size_t at = 0;
    if constexpr (sizeof...(members) == 0)
        give(self, at, answer.value);
    else
        (give(self, at++, answer.value.*members), ...);
    return coded(answer.code);
}

/* The handle of one of these types that has a seat. */
template <class... Seats> std::int32_t leave_any(const row *self) {
    fak::Code code = fak::Code::NoSeat;
    static_cast<void>(((of<Seats>(self) && (code = of<Seats>(self).leave(), true)) || ...));
    return coded(code);
}

/* Whether a handle of this type moves, if it has a seat. */
template <class Seat> bool moves(const row *self) {
    if (of<Seat>(self))
        handles<Seat>[self->other_index] = std::move(of<Seat>(self));
    return static_cast<bool>(handles<Seat>[self->other_index]);
}

/* A seat moves to an empty handle. The types can't express a move that is refused. */
template <class... Seats> std::int32_t move_any(const row *self) {
    bool is_from = (static_cast<bool>(of<Seats>(self)) || ...);
    bool is_to = (static_cast<bool>(handles<Seats>[self->other_index]) || ...);
    if (!is_from || is_to)
        return is_from ? FAK_C_WRONG_STATE : FAK_C_NO_SEAT;
    return (moves<Seats>(self) || ...) ? FAK_C_OK : FAK_C_MEMORY;
}

const Item &sent(const row *self, std::size_t at) { return *reinterpret_cast<const Item *>(&self->in[at]); }

/* The words of an item are written in order. */
std::int32_t received(row *self, const fak::Answer<Item> &answer) {
    for (std::size_t i = 0; i < 4; i++)
        give(self, i, answer.value.word[i]);
    return coded(answer.code);
}

fak::Clock::time_point deadline_of(const row *self) {
    bool is_never = self->in[0] == FAK_CHANNEL_NEVER;
    return is_never ? fak::Clock::time_point::max() : fak::Clock::time_point(std::chrono::nanoseconds(self->in[0]));
}

/* An end moves to an empty one. */
std::int32_t move_end(row *self) {
    End &from = of<End>(self), &to = handles<End>[self->other_index];
    if (!from || to)
        return from ? FAK_C_WRONG_STATE : FAK_C_NO_SEAT;
    to = std::move(from);
    return to ? FAK_C_OK : FAK_C_MEMORY;
}

fak::Sender<Item> &sender(const row *self) { return senders[self->index]; }

fak::Receiver<Item> &receiver(const row *self) { return receivers[self->index]; }

std::int32_t open_shared(row *self) {
    auto opened = fak::Channel<Item>::open(self->in[2], self->in[0], self->in[1]);
    sender(self) = std::move(opened.value.sender);
    receiver(self) = std::move(opened.value.receiver);
    return coded(opened.code);
}

/* Whether a handle is empty, or leaves. One that can't leave is abandoned. */
template <class Seat> bool leaves(Seat &handle) {
    bool has_left = !handle || handle.leave() == fak::Code::Ok;
    handle = Seat();
    return has_left;
}

template <class... Seats> bool all_leave() {
    bool have_left = true;
    for (std::size_t i = 0; i < HANDLES; i++)
        ((have_left = leaves(handles<Seats>[i]) && have_left), ...);
    for (std::size_t i = 0; i < 26; i++) {
        senders[i] = fak::Sender<Item>();
        receivers[i] = fak::Receiver<Item>();
    }
    return have_left;
}

} // namespace

#define QUEUE_CALLS(CALL) \
    CALL(any, leave, (leave_any<Queue, Bundle, Sem, Room, Credit, File>(self))) \
    CALL(any, move, (move_any<Queue, Bundle>(self))) \
    CALL(open, open, opens<Queue>(self, self->in[0], self->in[1])) \
    CALL(any, claim_insert, gives(self, of<Queue>(self).claim_put(self->in[0]))) \
    CALL(any, try_fill, coded(of<Queue>(self).try_put())) \
    CALL(any, claim_delete, gives(self, of<Queue>(self).claim_get())) \
    CALL(any, try_take, gives(self, of<Queue>(self).try_get())) \
    CALL(any, insert, gives(self, of<Queue>(self).put(self->in[0]))) \
    CALL(any, put, gives(self, of<Queue>(self).put(self->in[0]))) \
    CALL(any, delete, gives(self, of<Queue>(self).get(), &Queue::Taken::ticket, &Queue::Taken::item)) \
    CALL(any, get, gives(self, of<Queue>(self).get(), &Queue::Taken::ticket, &Queue::Taken::item)) \
    CALL(any, pause, coded(of<Queue>(self).pause())) \
    CALL(any, shut, gives(self, of<Queue>(self).shut())) \
    CALL(any, state, gives(self, of<Queue>(self).state(), &Queue::Standing::state, &Queue::Standing::ticket, &Queue::Standing::left)) \
    CALL(any, count, gives(self, of<Queue>(self).count())) \
    CALL(any, in_use, gives(self, of<Queue>(self).in_use(), &Queue::InUse::cells, &Queue::InUse::is_shut)) \
    CALL(any, drained, gives(self, of<Queue>(self).drained()))

#define BUNDLE_CALLS(CALL) \
    CALL(open, open_bundles, open_bundles(self)) \
    CALL(any, insert_burst, gives(self, of<Bundle>(self).put_burst(self->in, self->in_count), &Bundle::Burst::ticket, \
        &Bundle::Burst::count)) \
    CALL(any, try_fill_burst, gives(self, of<Bundle>(self).try_put_burst())) \
    CALL(any, delete_burst, gives(self, of<Bundle>(self).get_burst(items_of(self), self->in[0]), &Bundle::TakenBurst::ticket, \
        &Bundle::TakenBurst::count, &Bundle::TakenBurst::taken)) \
    CALL(any, try_take_burst, gives(self, of<Bundle>(self).try_get_burst(items_of(self), self->in[0]), &Bundle::Rest::taken, \
        &Bundle::Rest::left)) \
    CALL(any, bundle_state, gives(self, of<Bundle>(self).state(), &Bundle::Standing::state, &Bundle::Standing::ticket, \
        &Bundle::Standing::open, &Bundle::Standing::width, &Bundle::Standing::left))

#define OTHER_CALLS(CALL) \
    CALL(open, sem_open, opens<Sem>(self, self->in[0], self->in[1], self->in[2])) \
    CALL(any, sem_claim_down, coded(of<Sem>(self).claim_down(self->in[0]))) \
    CALL(any, sem_try_park, coded(of<Sem>(self).try_park())) \
    CALL(any, sem_claim_up, coded(of<Sem>(self).claim_up())) \
    CALL(any, sem_try_wake, gives(self, of<Sem>(self).try_wake())) \
    CALL(any, sem_state, gives(self, of<Sem>(self).state(), &Sem::Standing::state, &Sem::Standing::left)) \
    CALL(open, room_open, opens<Room>(self, self->in[0], self->in[1])) \
    CALL(any, room_tir, gives(self, of<Room>(self).claim(self->in[0]))) \
    CALL(any, room_release, gives(self, of<Room>(self).release(self->in[0]))) \
    CALL(any, room_state, gives(self, of<Room>(self).state(), &Room::Standing::held, &Room::Standing::left)) \
    CALL(open, credit_open, opens<Credit>(self, self->in[0], self->in[1])) \
    CALL(any, credit_debit, gives(self, of<Credit>(self).debit())) \
    CALL(any, credit_credit, gives(self, of<Credit>(self).credit())) \
    CALL(any, credit_value, gives(self, of<Credit>(self).state(), &Credit::Standing::value, &Credit::Standing::left)) \
    CALL(open, files_open, opens<File>(self, self->in[0], self->in[1])) \
    CALL(any, files_try_read, gives(self, of<File>(self).try_read())) \
    CALL(any, files_try_write, gives(self, of<File>(self).try_write())) \
    CALL(any, files_get, gives(self, of<File>(self).get(self->in[0]), &File::Entry::inode, &File::Entry::uses)) \
    CALL(any, files_set_inode, coded(of<File>(self).set_inode(self->in[0], self->in[1]))) \
    CALL(any, files_set_uses, coded(of<File>(self).set_uses(self->in[0], self->in[1]))) \
    CALL(any, files_end, coded(of<File>(self).end())) \
    CALL(any, files_hold, gives(self, of<File>(self).hold()))

#define CHANNEL_CALLS(CALL) \
    CALL(open, channel_open_ends, opens<End>(self, self->in[0], self->in[1])) \
    CALL(any, channel_send, coded(of<End>(self).send(sent(self, 0)))) \
    CALL(any, channel_receive, received(self, of<End>(self).receive())) \
    CALL(any, channel_try_send, coded(of<End>(self).try_send(sent(self, 0)))) \
    CALL(any, channel_try_receive, received(self, of<End>(self).try_receive())) \
    CALL(any, channel_send_until, coded(of<End>(self).send_until(sent(self, 1), deadline_of(self)))) \
    CALL(any, channel_receive_until, received(self, of<End>(self).receive_until(deadline_of(self)))) \
    CALL(any, channel_close, coded(of<End>(self).close())) \
    CALL(any, channel_len, gives(self, of<End>(self).len())) \
    CALL(any, channel_is_closed, gives(self, of<End>(self).is_closed())) \
    CALL(any, channel_leave, coded(of<End>(self).leave())) \
    CALL(any, channel_move, move_end(self)) \
    CALL(any, channel_shared_open, open_shared(self)) \
    CALL(any, channel_shared_send, coded(sender(self).send(sent(self, 0)))) \
    CALL(any, channel_shared_receive, received(self, receiver(self).receive())) \
    CALL(any, channel_shared_try_send, coded(sender(self).try_send(sent(self, 0)))) \
    CALL(any, channel_shared_try_receive, received(self, receiver(self).try_receive())) \
    CALL(any, channel_shared_send_until, coded(sender(self).send_until(sent(self, 1), deadline_of(self)))) \
    CALL(any, channel_shared_receive_until, received(self, receiver(self).receive_until(deadline_of(self)))) \
    CALL(any, channel_shared_close, coded(receiver(self).close())) \
    CALL(any, channel_shared_len, gives(self, receiver(self).len())) \
    CALL(any, channel_shared_is_closed, gives(self, sender(self).is_closed()))

QUEUE_CALLS(DEFINE_CALL)
BUNDLE_CALLS(DEFINE_CALL)
OTHER_CALLS(DEFINE_CALL)
CHANNEL_CALLS(DEFINE_CALL)

const named_call calls_of_objects[] = {QUEUE_CALLS(LIST_CALL) BUNDLE_CALLS(LIST_CALL) OTHER_CALLS(LIST_CALL){nullptr, nullptr, nullptr}};
const named_call calls_of_channels[] = {CHANNEL_CALLS(LIST_CALL){nullptr, nullptr, nullptr}};
const bool is_for_c = false;

bool others_leave() { return all_leave<Queue, Bundle, Sem, Room, Credit, File, End>(); }
