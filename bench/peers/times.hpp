/* The times of many calls, counted in classes: 64 of equal width between each power of two and the next. */
#pragma once

#include <algorithm>
#include <array>
#include <bit>
#include <cstdint>

class Times {
public:
    void add(std::uint64_t ticks) {
        classes[class_of(ticks)]++;
        count++;
        longest = std::max(longest, ticks);
    }

    void add(const Times &other) {
        for (unsigned i = 0; i < classes.size(); i++)
            classes[i] += other.classes[i];
        count += other.count;
        longest = std::max(longest, other.longest);
    }

    /* The ticks that this share of the calls did not take longer than, exact to a sixty-fourth. */
    std::uint64_t at(double share) const {
        auto wanted = static_cast<std::uint64_t>(static_cast<double>(count) * share);
        std::uint64_t passed = 0;
        for (unsigned i = 0; i < classes.size(); i++) {
            passed += classes[i];
            if (passed > wanted)
                return std::min(last_of(i), longest);
        }
        return longest;
    }

    std::uint64_t worst() const { return longest; }

private:
    static constexpr unsigned bits = 6, width = 1u << bits;

    static unsigned class_of(std::uint64_t ticks) {
        if (ticks < width)
            return static_cast<unsigned>(ticks);
        auto shift = static_cast<unsigned>(std::bit_width(ticks)) - bits - 1;
        return shift * width + static_cast<unsigned>(ticks >> shift);
    }

    /* The longest time of a class. */
    static std::uint64_t last_of(unsigned number) {
        if (number < 2 * width)
            return number;
        unsigned shift = number / width - 1;
        return ((std::uint64_t{number % width + width} + 1) << shift) - 1;
    }

    std::array<std::uint32_t, (64 - bits + 1) * width> classes{};
    std::uint64_t count = 0, longest = 0;
};
