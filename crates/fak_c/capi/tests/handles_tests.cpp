/* Tests of fak_c.hpp: handles that move and end, and typed items that threads share; rows_of_handles.cpp makes each call. The heap counts,
 * so that an object which is not given up is found. The linker's --wrap sends two calls that open here. */
#include "check.h"
#include "fak_c.hpp"
#include "heap.h"

#include <array>
#include <atomic>
#include <cstdio>
#include <cstdlib>
#include <cstring>
#include <new>
#include <string_view>
#include <thread>
#include <utility>
#include <vector>

using fak::Code;
using Queue = fak::QueueSeat<int>;

/* ---- The heap, which counts ---- */

static std::atomic<long> live;

extern "C" allocation rattle_alloc(std::size_t size, std::size_t align) {
    void *part = align <= 16 ? std::malloc(size) : nullptr;
    live += part != nullptr;
    return part != nullptr ? allocation{true, part} : allocation{false, &live};
}

extern "C" allocation rattle_realloc(void *, std::size_t, std::size_t, std::size_t) { return {false, &live}; }

extern "C" void rattle_dealloc(void *part) {
    live--;
    std::free(part);
}

/* ---- Calls of C that open ---- */

extern "C" {
std::int32_t __real_fak_c_open(fak_c_seat *seats, std::size_t n, std::uint64_t size, std::uint64_t stint);
std::int32_t __real_fak_c_open_bundles(fak_c_seat *seats, std::size_t n, fak_c_seat *bundles, std::size_t m, std::uint64_t width,
    std::uint64_t size, std::uint64_t stint);

/* No pointer is null, also if it is to nothing. */
std::int32_t __wrap_fak_c_open(fak_c_seat *seats, std::size_t n, std::uint64_t size, std::uint64_t stint) {
    CHECK(seats != nullptr);
    return __real_fak_c_open(seats, n, size, stint);
}

std::int32_t __wrap_fak_c_open_bundles(fak_c_seat *seats, std::size_t n, fak_c_seat *bundles, std::size_t m, std::uint64_t width,
    std::uint64_t size, std::uint64_t stint) {
    CHECK(seats != nullptr && bundles != nullptr && seats != bundles);
    return __real_fak_c_open_bundles(seats, n, bundles, m, width, size, stint);
}
}

/* ---- Items ---- */

enum class Color : unsigned char { Red, Green };

struct Point {
    std::int32_t x;
    std::int32_t y;
};

/* An item comes out as it went in. */
template <class T, class Same> static void passes(T item, Same same) {
    fak::QueueSeat<T> seats[2];
    CHECK(fak::QueueSeat<T>::open(seats, 4, 100) == Code::Ok);
    auto put = seats[0].put(item);
    CHECK(put && put.value == 0);
    auto got = seats[1].get();
    CHECK(got && got.value.ticket == 0 && same(got.value.item));
}

static void items_have_types() {
    int number = 7;
    passes<int>(-5, [](int item) { return item == -5; });
    passes<std::uint64_t>(UINT64_MAX, [](std::uint64_t item) { return item == UINT64_MAX; });
    passes<double>(-0.5, [](double item) { return item == -0.5; });
    passes<bool>(true, [](bool item) { return item; });
    passes<Color>(Color::Green, [](Color item) { return item == Color::Green; });
    passes<Point>({-1, 2}, [](Point item) { return item.x == -1 && item.y == 2; });
    passes<const int *>(&number, [&](const int *item) { return item == &number; });
    passes<void (*)()>(items_have_types, [](void (*item)()) { return item == items_have_types; });
}

/* An item with bytes between its members. */
struct Padded {
    char letter;
    std::int32_t number;
};

/* The word that an item becomes if these bits lay before where it was made. */
[[maybe_unused]] static std::uint64_t word_over(unsigned char bits) {
    alignas(Padded) unsigned char bytes[sizeof(Padded)];
    std::memset(bytes, bits, sizeof bytes);
    Padded *item = new (bytes) Padded;
    fak::QueueSeat<Padded> seats[1];
    std::uint64_t word = 0, ticket = 0;
    item->letter = 'x';
    item->number = -1;
    CHECK(fak::QueueSeat<Padded>::open(seats, 4, 9) == Code::Ok && seats[0].put(*item));
    CHECK(fak_c_delete(seats[0].get_handle(), &ticket, &word) == FAK_C_OK);
    return word;
}

/* No byte is sent that the program has not written. */
static void bytes_between_members_are_0() {
#ifdef FAK_C_CLEARS_PADDING
    CHECK(word_over(0) == word_over(0xA5) && word_over(0xFF) == (UINT64_C(0xFFFFFFFF) << 32 | 'x'));
#endif
    passes<Padded>({'y', 7}, [](Padded item) { return item.letter == 'y' && item.number == 7; });
}

/* ---- Handles ---- */

static void no_handles_are_opened() {
    std::vector<Queue> none;
    std::vector<fak::Bundle<int>> no_bundles, bundles(1);
    CHECK(Queue::open(none, 4, 9) == Code::BadLimit && fak::Bundle<int>::open(no_bundles, 2, 4, 9) == Code::BadLimit);
    CHECK(fak::Bundle<int>::open(none, no_bundles, 2, 4, 9) == Code::BadLimit);
    CHECK(fak::Bundle<int>::open(none, bundles, 2, 4, 9) == Code::Ok && bundles[0]);
}

static void handles_own_their_seats() {
    std::array<Queue, 3> seats;
    CHECK(!seats[0] && seats[0].leave() == Code::NoSeat && seats[0].put(1).code == Code::NoSeat);
    CHECK(Queue::open(seats, 0, 9) == Code::BadLimit && live == 0);
    CHECK(Queue::open(seats, 4, 9) == Code::Ok && seats[2] && live > 3);
    CHECK(Queue::open(seats, 4, 9) == Code::WrongState);
    {
        Queue moved = std::move(seats[0]);
        CHECK(moved && !seats[0] && moved.put(5));
        seats[0] = std::move(moved);
        CHECK(seats[0] && !moved);
        Queue &same = seats[0];
        seats[0] = std::move(same);
        CHECK(seats[0] && seats[0].get().value.item == 5);
    }
    CHECK(seats[1].leave() == Code::Ok && !seats[1]);
    seats[0] = std::move(seats[2]); /* the seat of the first handle leaves */
    CHECK(seats[0] && seats[0].state().value.left == 9 && live > 0);
    CHECK(fak_c_leave(seats[0].get_handle()) == FAK_C_OK && !seats[0] && live == 0);
}

static void a_vector_of_seats_is_opened() {
    std::vector<fak::CreditSeat> seats(1024);
    CHECK(fak::CreditSeat::open(seats, 3, UINT64_C(1) << 40) == Code::Ok);
    for (auto &seat : seats)
        CHECK(seat.credit());
    CHECK(seats[0].state().value.value == 3 + 1024);
    seats.clear();
    CHECK(live == 0);
    seats.resize(1025);
    CHECK(fak::CreditSeat::open(seats, 3, 1) == Code::BadLimit && !seats[0]);
}

/* A seat that is given up during a call is abandoned: its object stays forever. */
static void *volatile abandoned; /* since it is known here, the address sanitizer finds no leak */

static void a_seat_in_mid_call_is_abandoned() {
    long before = live;
    Queue other;
    {
        Queue seats[2];
        CHECK(Queue::open(seats, 4, 9) == Code::Ok && seats[0].claim_put(8));
        other = std::move(seats[1]);
        abandoned = seats[0].get_handle()->at;
        seats[0] = Queue();
        CHECK(!seats[0]);
    }
    CHECK(other.leave() == Code::Ok && live > before);
}

/* ---- Bursts and codes ---- */

/* A burst has no more items than its class says. Items have types, and bundles are opened only over empty handles. */
static void bursts_have_types() {
    using Short = fak::Bundle<Point, 2>;
    fak::QueueSeat<Point> seats[1];
    Short bundles[1], others[1];
    Point in[3] = {{1, -1}, {2, -2}, {3, -3}}, out[3] = {};
    CHECK(Short::open(seats, bundles, 5, 6, 9) == Code::Ok && Short::open(seats, others, 5, 6, 9) == Code::WrongState && !others[0]);
    CHECK(Short::open(bundles, 5, 6, 9) == Code::WrongState && bundles[0].put_burst(in, 3).value.count == 2);
    CHECK(bundles[0].put_burst(in + 2, 1) && bundles[0].get_burst(out, 3).value.count == 2 && out[1].x == 2 && out[1].y == -2);
    CHECK(bundles[0].get_burst(out, 3).value.count == 1 && out[0].x == 3 && out[2].x == 0);
}

/* What a semaphore wakes has a type too. */
static void woken_items_have_types() {
    fak::SemSeat<Color> seats[2];
    CHECK(fak::SemSeat<Color>::open(seats, 0, 4, 9) == Code::Ok && seats[0].claim_down(Color::Green) == Code::Parks);
    CHECK(seats[0].try_park() == Code::Ok && seats[1].claim_up() == Code::Wakes && seats[1].try_wake().value == Color::Green);
}

static void codes_have_texts() {
    for (std::int32_t a = FAK_C_OK; a <= FAK_C_GAVE_UP; a++)
        for (std::int32_t b = FAK_C_OK; b <= FAK_C_GAVE_UP + 1; b++)
            CHECK((std::string_view(fak::text_of(Code{a})) == fak::text_of(Code{b})) == (a == b));
}

/* ---- Threads ---- */

static void put_all(fak::QueueSeat<const Point *> seat, const std::vector<Point> &points) {
    for (const Point &point : points) {
        Code code;
        while ((code = seat.put(&point).code) == Code::Full)
            std::this_thread::yield();
        while (code == Code::NotYet) {
            std::this_thread::yield();
            code = seat.try_put();
        }
        CHECK(code == Code::Ok);
    }
}

static const Point *get_one(fak::QueueSeat<const Point *> &seat) {
    auto got = seat.get();
    const Point *item = got.value.item;
    while (got.code == Code::NotYet) {
        std::this_thread::yield();
        auto taken = seat.try_get();
        got.code = taken.code;
        item = taken.value;
    }
    CHECK(got.code == Code::Ok || got.code == Code::Empty);
    return item;
}

/* Each producer has its points, whose x is its number. Each point comes out once, in the order of its producer. */
static void threads_share_a_queue(int items) {
    std::array<fak::QueueSeat<const Point *>, 3> seats;
    std::array<std::vector<Point>, 2> points;
    std::array<int, 2> taken{};
    CHECK(decltype(seats)::value_type::open(seats, 16, UINT64_C(1) << 40) == Code::Ok);
    auto produce = [&](int producer, fak::QueueSeat<const Point *> seat) {
        for (int item = 0; item < items; item++)
            points[producer].push_back({producer, item});
        put_all(std::move(seat), points[producer]);
    };
    std::thread first(produce, 0, std::move(seats[0]));
    std::thread second(produce, 1, std::move(seats[1]));
    while (taken[0] + taken[1] < 2 * items) {
        if (const Point *point = get_one(seats[2]))
            CHECK(point->y == taken[point->x]++);
        else
            std::this_thread::yield();
    }
    first.join();
    second.join();
    CHECK(taken[0] == items && taken[1] == items && seats[2].get().code == Code::Empty);
}

/* Points go by bursts from one thread to another, which gets each in its order. */
static void threads_pass_bursts(int items) {
    using Bundle = fak::Bundle<const Point *, 8>;
    std::array<Bundle, 2> bundles;
    std::vector<Point> points;
    for (int item = 0; item < items; item++)
        points.push_back({item, -item});
    CHECK(Bundle::open(bundles, 8, 20, UINT64_C(1) << 40) == Code::Ok);
    std::thread producer([&points, bundle = std::move(bundles[0])]() mutable {
        for (std::size_t put = 0; put < points.size();) {
            const Point *lot[8];
            std::size_t n = 0;
            for (; n < 1 + put % 8 && put + n < points.size(); n++)
                lot[n] = &points[put + n];
            auto burst = bundle.put_burst(lot, n);
            for (Code code = burst.code; code == Code::NotYet; code = bundle.try_put_burst().code)
                std::this_thread::yield();
            put += burst.value.count;
            if (burst.code == Code::Full)
                std::this_thread::yield();
        }
    });
    for (int taken = 0; taken < items;) {
        const Point *lot[8];
        auto burst = bundles[1].get_burst(lot, 8);
        std::size_t count = burst.value.taken;
        while (count < burst.value.count) {
            std::this_thread::yield();
            count += bundles[1].try_get_burst(lot + count, 8 - count).value.taken;
        }
        for (std::size_t i = 0; i < count; i++, taken++)
            CHECK(lot[i]->x == taken && lot[i]->y == -taken);
        if (count == 0)
            std::this_thread::yield();
    }
    producer.join();
}

int main(int count, char **words) {
    items_have_types();
    bytes_between_members_are_0();
    no_handles_are_opened();
    handles_own_their_seats();
    a_vector_of_seats_is_opened();
    bursts_have_types();
    woken_items_have_types();
    codes_have_texts();
    threads_share_a_queue(count > 1 ? std::atoi(words[1]) : 20000);
    threads_pass_bursts(count > 1 ? std::atoi(words[1]) : 20000);
    CHECK(live == 0);
    a_seat_in_mid_call_is_abandoned();
    return 0;
}
