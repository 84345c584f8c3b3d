/* Lists of pointers: the ready list, the sleepers, the free pages and the page frames are queues of the library, without locks. An
 * insertion is a claim, which draws a ticket, and tries at the ticket's cell. While another processor has the cell, its turn has not come.
 * A burst is one claim of several tickets. */
#include "kernel.h"

/* Counts a try that came too early, and pauses. Returns whether it was one. */
static bool pause_if_not_yet(int32_t code) {
    if (code != FAK_C_NOT_YET)
        return false;
    this_processor()->not_yet++;
    pause();
    return true;
}

void put(fak_c_seat *seat, void *item) {
    uint64_t flags = shield(), ticket = 0;
    int32_t code;
    expect_ok(fak_c_claim_insert(seat, (uintptr_t)item, &ticket), "claim_insert");
    linger();
    while (pause_if_not_yet(code = fak_c_try_fill(seat))) {
    }
    expect_ok(code, "try_fill");
    unshield(flags);
}

void *get(fak_c_seat *seat) {
    uint64_t flags = shield(), ticket = 0, item = 0;
    int32_t code = fak_c_claim_delete(seat, &ticket);
    if (code != FAK_C_EMPTY) {
        expect_ok(code, "claim_delete");
        linger();
        while (pause_if_not_yet(code = fak_c_try_take(seat, &item))) {
        }
        expect_ok(code, "try_take");
    }
    unshield(flags);
    return (void *)(uintptr_t)item;
}

/* Inserts n items, by as many bursts as that needs. */
void put_all(fak_c_seat *bundle, const uint64_t *items, uint64_t n) {
    uint64_t flags = shield(), count = 0;
    for (uint64_t put = 0; put < n; put += count) {
        uint64_t ticket = 0, left = 0;
        int32_t code = fak_c_insert_burst(bundle, items + put, n - put, &ticket, &count);
        while (pause_if_not_yet(code))
            code = fak_c_try_fill_burst(bundle, &left);
        expect_ok(code, "insert_burst");
    }
    unshield(flags);
}

/* Deletes up to n items by one burst. Returns how many. */
uint64_t get_some(fak_c_seat *bundle, uint64_t *items, uint64_t n) {
    uint64_t flags = shield(), ticket = 0, count = 0, taken = 0, more = 0, left = 0;
    int32_t code = fak_c_delete_burst(bundle, items, n, &ticket, &count, &taken);
    if (code != FAK_C_EMPTY) {
        for (; pause_if_not_yet(code); taken += more)
            code = fak_c_try_take_burst(bundle, items + taken, n - taken, &more, &left);
        expect_ok(code, "delete_burst");
    }
    unshield(flags);
    return taken;
}
