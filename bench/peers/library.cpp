/* This library, by each of its two archives. Both are in one program, so their calls begin with the backend's name. */
#include "fak_c.h"
#include "failure.hpp"
#include "queue.hpp"
#include <sched.h>

extern "C" {
decltype(fak_c_open) llvm_fak_c_open, rattle_fak_c_open;
decltype(fak_c_leave) llvm_fak_c_leave, rattle_fak_c_leave;
decltype(fak_c_pause) llvm_fak_c_pause, rattle_fak_c_pause;
decltype(fak_c_insert) llvm_fak_c_insert, rattle_fak_c_insert;
decltype(fak_c_delete) llvm_fak_c_delete, rattle_fak_c_delete;
decltype(fak_c_claim_insert) llvm_fak_c_claim_insert, rattle_fak_c_claim_insert;
decltype(fak_c_try_fill) llvm_fak_c_try_fill, rattle_fak_c_try_fill;
decltype(fak_c_claim_delete) llvm_fak_c_claim_delete, rattle_fak_c_claim_delete;
decltype(fak_c_try_take) llvm_fak_c_try_take, rattle_fak_c_try_take;
decltype(fak_c_open_bundles) llvm_fak_c_open_bundles, rattle_fak_c_open_bundles;
decltype(fak_c_insert_burst) llvm_fak_c_insert_burst, rattle_fak_c_insert_burst;
decltype(fak_c_try_fill_burst) llvm_fak_c_try_fill_burst, rattle_fak_c_try_fill_burst;
decltype(fak_c_delete_burst) llvm_fak_c_delete_burst, rattle_fak_c_delete_burst;
decltype(fak_c_try_take_burst) llvm_fak_c_try_take_burst, rattle_fak_c_try_take_burst;
}

namespace {
/* The calls of each archive. */
struct CallsByLlvm {
    static constexpr auto *open = llvm_fak_c_open;
    static constexpr auto *leave = llvm_fak_c_leave;
    static constexpr auto *pause = llvm_fak_c_pause;
    static constexpr auto *insert = llvm_fak_c_insert;
    static constexpr auto *remove = llvm_fak_c_delete;
    static constexpr auto *claim_insert = llvm_fak_c_claim_insert;
    static constexpr auto *try_fill = llvm_fak_c_try_fill;
    static constexpr auto *claim_delete = llvm_fak_c_claim_delete;
    static constexpr auto *try_take = llvm_fak_c_try_take;
    static constexpr auto *open_bundles = llvm_fak_c_open_bundles;
    static constexpr auto *insert_burst = llvm_fak_c_insert_burst;
    static constexpr auto *try_fill_burst = llvm_fak_c_try_fill_burst;
    static constexpr auto *delete_burst = llvm_fak_c_delete_burst;
    static constexpr auto *try_take_burst = llvm_fak_c_try_take_burst;
};

struct CallsByRattle {
    static constexpr auto *open = rattle_fak_c_open;
    static constexpr auto *leave = rattle_fak_c_leave;
    static constexpr auto *pause = rattle_fak_c_pause;
    static constexpr auto *insert = rattle_fak_c_insert;
    static constexpr auto *remove = rattle_fak_c_delete;
    static constexpr auto *claim_insert = rattle_fak_c_claim_insert;
    static constexpr auto *try_fill = rattle_fak_c_try_fill;
    static constexpr auto *claim_delete = rattle_fak_c_claim_delete;
    static constexpr auto *try_take = rattle_fak_c_try_take;
    static constexpr auto *open_bundles = rattle_fak_c_open_bundles;
    static constexpr auto *insert_burst = rattle_fak_c_insert_burst;
    static constexpr auto *try_fill_burst = rattle_fak_c_try_fill_burst;
    static constexpr auto *delete_burst = rattle_fak_c_delete_burst;
    static constexpr auto *try_take_burst = rattle_fak_c_try_take_burst;
};

constexpr std::uint64_t longest_stint = UINT64_C(1) << 40;

/* A thread whose turn has not come at its cell yields and tries again. With `pauses`, a thread lets the library pause before each call.
 * Another way to call the library is one more entry below. */
template <class Calls, bool pauses> class LibraryQueue : public SteppedQueue {
public:
    LibraryQueue(unsigned size, unsigned threads) : seats(threads) {
        if (Calls::open(seats.data(), threads, size, longest_stint) != FAK_C_OK)
            fail("fak_c_open: no memory");
    }

    ~LibraryQueue() override {
        for (fak_c_seat &seat : seats)
            if (Calls::leave(&seat) != FAK_C_OK)
                fail("fak_c_leave: a call is open");
    }

    bool put(unsigned thread, std::uint64_t item) override {
        pause(thread);
        std::uint64_t ticket = 0;
        std::int32_t answer = Calls::insert(&seats[thread], item, &ticket);
        if (answer != FAK_C_NOT_YET)
            return is_ok(answer, FAK_C_FULL);
        while (!fill(thread))
            sched_yield();
        return true;
    }

    bool get(unsigned thread, std::uint64_t &item) override {
        pause(thread);
        std::uint64_t ticket = 0;
        std::int32_t answer = Calls::remove(&seats[thread], &ticket, &item);
        if (answer != FAK_C_NOT_YET)
            return is_ok(answer, FAK_C_EMPTY);
        while (!take(thread, item))
            sched_yield();
        return true;
    }

    bool claim_put(unsigned thread, std::uint64_t item) override {
        std::uint64_t ticket = 0;
        return is_ok(Calls::claim_insert(&seats[thread], item, &ticket), FAK_C_FULL);
    }

    bool fill(unsigned thread) override { return is_ok(Calls::try_fill(&seats[thread]), FAK_C_NOT_YET); }

    bool claim_get(unsigned thread) override {
        std::uint64_t ticket = 0;
        return is_ok(Calls::claim_delete(&seats[thread], &ticket), FAK_C_EMPTY);
    }

    bool take(unsigned thread, std::uint64_t &item) override {
        return is_ok(Calls::try_take(&seats[thread], &item), FAK_C_NOT_YET);
    }

private:
    void pause(unsigned thread) {
        if (pauses && Calls::pause(&seats[thread]) != FAK_C_OK)
            fail("fak_c_pause: the library returned a code that it must not return here");
    }

    /* Whether the call was made. Only this one refusal may come instead. */
    static bool is_ok(std::int32_t answer, std::int32_t refusal) {
        if (answer != FAK_C_OK && answer != refusal)
            fail("the library returned a code that it must not return here");
        return answer == FAK_C_OK;
    }

    std::vector<fak_c_seat> seats;
};

/* A bundle of each thread's own, by which single items go as bursts of one. */
template <class Calls> class LibraryBundles : public Queue, public Bursts {
public:
    LibraryBundles(unsigned size, unsigned threads, unsigned width) : bundles(threads) {
        fak_c_seat none{};
        if (Calls::open_bundles(&none, 0, bundles.data(), threads, width, size, longest_stint) != FAK_C_OK)
            fail("fak_c_open_bundles: no memory");
    }

    ~LibraryBundles() override {
        for (fak_c_seat &bundle : bundles)
            if (Calls::leave(&bundle) != FAK_C_OK)
                fail("fak_c_leave: a burst is open");
    }

    bool put(unsigned thread, std::uint64_t item) override { return put_burst(thread, &item, 1) == 1; }
    bool get(unsigned thread, std::uint64_t &item) override { return get_burst(thread, &item, 1) == 1; }

    unsigned put_burst(unsigned thread, const std::uint64_t *items, unsigned count) override {
        std::uint64_t ticket = 0, claimed = 0, left = 0;
        std::int32_t code = Calls::insert_burst(&bundles[thread], items, count, &ticket, &claimed);
        if (code == FAK_C_FULL)
            return 0;
        while (code == FAK_C_NOT_YET) {
            sched_yield();
            code = Calls::try_fill_burst(&bundles[thread], &left);
        }
        return ended(code, claimed);
    }

    unsigned get_burst(unsigned thread, std::uint64_t *items, unsigned count) override {
        std::uint64_t ticket = 0, claimed = 0, taken = 0, more = 0, left = 0;
        std::int32_t code = Calls::delete_burst(&bundles[thread], items, count, &ticket, &claimed, &taken);
        if (code == FAK_C_EMPTY)
            return 0;
        while (code == FAK_C_NOT_YET) {
            sched_yield();
            code = Calls::try_take_burst(&bundles[thread], items + taken, count - taken, &more, &left);
            taken += more;
        }
        return ended(code, claimed);
    }

private:
    static unsigned ended(std::int32_t code, std::uint64_t claimed) {
        if (code != FAK_C_OK)
            fail("the library returned a code that it must not return for a burst");
        return static_cast<unsigned>(claimed);
    }

    std::vector<fak_c_seat> bundles;
};

/* An entry that has single calls, also for the items of a burst. */
template <class Calls, bool pauses> Implementation single_calls(unsigned place, const char *name) {
    return {place, name, [](unsigned size, unsigned threads) {
        return std::make_unique<LibraryQueue<Calls, pauses>>(size, threads);
    }};
}

template <class Calls> Implementation with_bursts(Implementation single) {
    single.open_for_bursts = [](unsigned size, unsigned threads, unsigned width) {
        return std::make_unique<LibraryBundles<Calls>>(size, threads, width);
    };
    return single;
}

const Entry llvm_entry(with_bursts<CallsByLlvm>(single_calls<CallsByLlvm, false>(1, "library (llvm)")));
const Entry pausing_entry(single_calls<CallsByLlvm, true>(2, "library (llvm), fak_c_pause"));
const Entry rattle_entry(with_bursts<CallsByRattle>(single_calls<CallsByRattle, false>(3, "library (rattle)")));
}
