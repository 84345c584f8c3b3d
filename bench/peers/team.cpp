#include "team.hpp"

#include "clock.hpp"

#include <algorithm>
#include <barrier>
#include <cstdint>
#include <thread>
#include <vector>

namespace {
struct alignas(128) Span {
    std::uint64_t begun = 0;
    std::uint64_t ended = 0;
};
}

double run_team(unsigned threads, const std::function<void(unsigned)> &work) {
    std::vector<Span> spans(threads);
    std::barrier start(static_cast<std::ptrdiff_t>(threads));
    std::vector<std::thread> members;
    for (unsigned thread = 0; thread < threads; thread++) {
        members.emplace_back([&, thread] {
            start.arrive_and_wait();
            spans[thread].begun = monotonic_clock();
            work(thread);
            spans[thread].ended = monotonic_clock();
        });
    }
    for (std::thread &member : members)
        member.join();
    auto begins_first = [](const Span &a, const Span &b) { return a.begun < b.begun; };
    auto ends_first = [](const Span &a, const Span &b) { return a.ended < b.ended; };
    std::uint64_t begun = std::min_element(spans.begin(), spans.end(), begins_first)->begun;
    return static_cast<double>(std::max_element(spans.begin(), spans.end(), ends_first)->ended - begun);
}
