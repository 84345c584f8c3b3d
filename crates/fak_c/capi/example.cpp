/* One thread sends the numbers from 1 to 1,000 to another, through a queue of 16 cells, and shuts it. The other adds them up. */
#include "fak_c.hpp"

#include <cstdio>
#include <thread>
#include <utility>

using Seat = fak::QueueSeat<int>;

/* Inserts the item. False if the queue is shut, or the stint is used up. */
static bool insert(Seat &seat, int item) {
    fak::Code code;
    while ((code = seat.put(item).code) == fak::Code::Full)
        std::this_thread::yield();
    while (code == fak::Code::NotYet) {
        std::this_thread::yield();
        code = seat.try_put();
    }
    return code == fak::Code::Ok;
}

/* Deletes the oldest item: 0 if there is none. */
static int delete_one(Seat &seat) {
    auto got = seat.claim_get();
    if (!got)
        return 0;
    auto taken = seat.try_get();
    while (taken.code == fak::Code::NotYet) {
        std::this_thread::yield();
        taken = seat.try_get();
    }
    return taken.value;
}

int main() {
    Seat seats[2];
    long sum = 0;
    if (fak::Code code = Seat::open(seats, 16, 10000); code != fak::Code::Ok) {
        std::fprintf(stderr, "example: %s\n", fak::text_of(code));
        return 1;
    }
    std::thread sender([seat = std::move(seats[0])]() mutable {
        for (int item = 1; item <= 1000; item++)
            insert(seat, item);
        (void)seat.shut();
    });
    for (int taken = 0; taken < 1000;) {
        int item = delete_one(seats[1]);
        if (item == 0)
            std::this_thread::yield();
        sum += item;
        taken += item != 0;
    }
    sender.join();
    std::printf("the sum is %ld\n", sum);
    return 0;
}
