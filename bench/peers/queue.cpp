#include "queue.hpp"

#include <algorithm>

/* The entries are made before main starts, in an order that the linker chooses. */
static std::vector<Implementation> &all_implementations() {
    static std::vector<Implementation> all;
    return all;
}

const std::vector<Implementation> &implementations() {
    return all_implementations();
}

Entry::Entry(Implementation implementation) {
    auto &all = all_implementations();
    auto comes_later = [&](const Implementation &other) { return implementation.place < other.place; };
    all.insert(std::find_if(all.begin(), all.end(), comes_later), std::move(implementation));
}
