/* Four threads send the numbers from 1 to 1,000 to this one, each in a box of its own, through a channel of 16 cells. This one adds them
 * up. Each sleeps while it has to wait. The channel closes when the last sender goes. */
#include "fak_channel.hpp"

#include <cstdio>
#include <thread>

using Box = std::unique_ptr<int>;

/* Sends each fourth number from the first one on. */
static void send_some(fak::Sender<Box> sender, int first) {
    for (int number = first; number <= 1000; number += 4)
        if (sender.send(Box(new int(number))) != fak::Code::Ok)
            return;
}

int main() {
    auto opened = fak::Channel<Box>::open(16);
    if (!opened)
        return 1;
    auto [sender, receiver] = std::move(opened.value);
    std::thread threads[4];
    for (int first = 1; first <= 4; first++)
        threads[first - 1] = std::thread(send_some, sender, first);
    sender = {};
    long sum = 0;
    while (auto received = receiver.receive()) {
        Box box = std::move(received.value);
        sum += *box;
    }
    for (auto &thread : threads)
        thread.join();
    std::printf("the sum is %ld\n", sum);
    return 0;
}
