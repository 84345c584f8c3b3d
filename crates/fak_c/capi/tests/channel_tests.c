/* Sleepers and worn stints of a channel that is called by steps, on one thread; rows/channel_steps.rows has each code. Runs one group of
 * the tests: `steps`, `ends`, `shared`, `leaves`, `waits`, `cancels`, `memory`, `handed-over`, `storm ITEMS`, `shared-storm ITEMS`,
 * `own-parks ITEMS`, `closes ROUNDS`, `leaving ROUNDS`, `turns ROUNDS` or `sleepers COUNT`. */
#include "channel_tests.h"

#include <string.h>
#include <unistd.h>

static const fak_channel_item seven = {{7, 8, 9, 10}};
static const fak_channel_item none = {{0, 0, 0, 0}};

static bool are_equal(const fak_channel_item *one, const fak_channel_item *other) {
    return memcmp(one, other, sizeof *one) == 0;
}

/* ---- Steps ---- */

enum { ENDS = 6 };

static bool woken[ENDS];

/* Steps until the call is done or sleeps. Notes whom it wakes. */
static int32_t run(fak_c_seat *end, fak_channel_item *item) {
    for (;;) {
        uint64_t number = 99;
        int32_t code = fak_channel_step(end, item, &number);
        CHECK((code == FAK_C_WAKES) == (number != 99));
        if (code == FAK_C_WAKES) {
            CHECK(number < ENDS && !woken[number]);
            woken[number] = true;
        } else if (code != FAK_C_NOT_YET) {
            return code;
        }
    }
}

static void open_steps(fak_c_seat *ends, uint64_t size) {
    memset(woken, 0, sizeof woken);
    CHECK(fak_channel_open(ends, ENDS, size, 50) == FAK_C_OK);
}

static void leave_all(fak_c_seat *ends) {
    for (int i = 0; i < ENDS; i++)
        CHECK(fak_c_leave(&ends[i]) == FAK_C_OK && ends[i].at == NULL);
}

static void send_now(fak_c_seat *end, uint64_t word) {
    fak_channel_item item = fak_channel_of_word(word);
    CHECK(fak_channel_begin_send(end, &item) == FAK_C_OK && run(end, &item) == FAK_C_OK && item.word[0] == word);
}

/* All sleepers from `first` on wake up, one after the other, and find the channel closed. */
static void check_all_find_it_closed(fak_c_seat *ends, int first, const fak_channel_item *back) {
    for (int done = first; done < ENDS; done++) {
        fak_channel_item item = none;
        int number = first;
        while (number < ENDS && !woken[number])
            number++;
        CHECK(number < ENDS);
        woken[number] = false;
        CHECK(run(&ends[number], &item) == FAK_C_CLOSED && are_equal(&item, back));
    }
}

static void a_close_wakes_by_steps(void) {
    fak_c_seat ends[ENDS] = {0};
    fak_channel_item item = none;
    open_steps(ends, 1);
    for (int i = 1; i < ENDS; i++)
        CHECK(fak_channel_begin_receive(&ends[i]) == FAK_C_OK && run(&ends[i], &item) == FAK_C_SLEEPS);
    CHECK(fak_channel_begin_close(&ends[0]) == FAK_C_OK && run(&ends[0], &item) == FAK_C_OK);
    check_all_find_it_closed(ends, 1, &none);
    leave_all(ends);

    open_steps(ends, 1);
    send_now(&ends[1], 5);
    for (int i = 2; i < ENDS; i++)
        CHECK(fak_channel_begin_send(&ends[i], &seven) == FAK_C_OK && run(&ends[i], &item) == FAK_C_SLEEPS);
    CHECK(fak_channel_begin_close(&ends[0]) == FAK_C_OK && run(&ends[0], &item) == FAK_C_OK);
    check_all_find_it_closed(ends, 2, &seven);
    leave_all(ends);
}

enum { STINT = 5 };

/* Sends, or receives, until the stint has run out: it is the number of calls. */
static void wear_out(fak_c_seat *end, bool sends) {
    fak_channel_item item = none;
    int32_t code = FAK_C_OK;
    int calls = -1;
    while (code == FAK_C_OK) {
        calls++;
        code = sends ? fak_channel_begin_send(end, &seven) : fak_channel_begin_receive(end);
        if (code == FAK_C_OK)
            code = run(end, &item);
    }
    CHECK(code == FAK_C_WORN && calls == STINT);
}

/* The stints of senders run out, and then that of a receiver, which doesn't get all. A close needs no stint. */
static void stints_run_out(void) {
    fak_c_seat ends[ENDS] = {0};
    fak_channel_item unused = none;
    uint64_t number = 0, left = 99;
    uint32_t state = 0;
    CHECK(fak_channel_open(ends, ENDS, 100, STINT) == FAK_C_OK);
    for (int i = 1; i < ENDS; i++)
        wear_out(&ends[i], true);
    wear_out(&ends[0], false);
    CHECK(fak_channel_begin_send(&ends[1], &seven) == FAK_C_WORN && fak_channel_begin_try_send(&ends[1], &seven) == FAK_C_WORN);
    CHECK(fak_channel_begin_try_receive(&ends[0]) == FAK_C_WORN && fak_channel_begin_receive(&ends[0]) == FAK_C_WORN);
    CHECK(fak_channel_begin_close(&ends[0]) == FAK_C_OK && run(&ends[0], &unused) == FAK_C_OK);
    CHECK(fak_channel_state(&ends[0], &number, &state, &left) == FAK_C_OK && left == 0);
    leave_all(ends);
}

void sleepers_wake_by_steps(void) {
    a_close_wakes_by_steps();
    stints_run_out();
}

int main(int count, char **words) {
    alarm(280); /* what hangs fails */
    if (count == 2 && strcmp(words[1], "steps") == 0)
        sleepers_wake_by_steps();
    else if (count == 2 && strcmp(words[1], "ends") == 0)
        ends_wait();
    else if (count == 2 && strcmp(words[1], "shared") == 0)
        shared_ends_are_lent();
    else if (count == 2 && strcmp(words[1], "leaves") == 0)
        each_leave_is_counted();
    else if (count == 2 && strcmp(words[1], "waits") == 0)
        each_wait_ends();
    else if (count == 2 && strcmp(words[1], "cancels") == 0)
        a_cancelled_call_ends_first();
    else if (count == 2 && strcmp(words[1], "handed-over") == 0)
        what_is_written_is_handed_over();
    else if (count == 3 && strcmp(words[1], "leaving") == 0)
        leaves_race(strtoull(words[2], NULL, 10));
    else if (count == 3 && strcmp(words[1], "turns") == 0)
        callers_take_turns(strtoull(words[2], NULL, 10));
    else if (count == 2 && strcmp(words[1], "memory") == 0)
        each_channel_allocation_fails_in_turn();
    else if (count == 3 && strcmp(words[1], "storm") == 0)
        ends_storm(strtoull(words[2], NULL, 10));
    else if (count == 3 && strcmp(words[1], "shared-storm") == 0)
        a_shared_channel_storms(strtoull(words[2], NULL, 10));
    else if (count == 3 && strcmp(words[1], "own-parks") == 0)
        own_parks_storm(strtoull(words[2], NULL, 10));
    else if (count == 3 && strcmp(words[1], "closes") == 0)
        closes_race(strtoull(words[2], NULL, 10));
    else if (count == 3 && strcmp(words[1], "sleepers") == 0)
        sleepers_wake(strtoull(words[2], NULL, 10));
    else
        return 2;
    return 0;
}
