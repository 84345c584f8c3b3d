/* The calls of fak_channel.h by their names in rows: a line for each. A letter is a handle of a seat, an end, a shared channel or a
 * lending, by the call. Calls by steps of a letter that has an end are those of the end's seat. One shared channel has ends at a time. */
#include "rows.h"

static fak_channel_end ends[LOWER_HANDLES], shared_ends[LOWER_HANDLES];
static fak_channel_shared shared[26];
static fak_channel_lending lendings[26];

static fak_c_seat *seat_of(const row *self) {
    bool is_end = self->index < LOWER_HANDLES && ends[self->index].seat.at != NULL;
    return is_end ? &ends[self->index].seat : self->seat;
}

/* The item whose words are the numbers of the row from this one on, and the place of one that is written. */
static const fak_channel_item *sent(const row *self, size_t at) {
    return (const fak_channel_item *)&self->in[at];
}

static fak_channel_item *received(row *self) {
    return (fak_channel_item *)items_of(self);
}

/* Steps until the call is done or sleeps. Writes the number of the end that it wakes: one at most. */
static int32_t run_steps(row *self) {
    uint64_t *woken = word_at(self, 0), number = 0, wakes = 0;
    int32_t code;
    while ((code = fak_channel_step(seat_of(self), received(self), &number)) == FAK_C_NOT_YET || code == FAK_C_WAKES) {
        if (code == FAK_C_WAKES) {
            CHECK(wakes++ == 0);
            *woken = number;
        }
    }
    return code;
}

/* Notes the first word of an item that is dropped, as a digit. */
static void note(void *dropped, const fak_channel_item *item) {
    *(uint64_t *)dropped = 10 * *(uint64_t *)dropped + item->word[0];
}

static uint64_t *dropped(row *self) {
    *word_at(self, 0) = 0;
    return word_at(self, 0);
}

#define STEP_CALLS(CALL) \
    CALL(open, channel_open, fak_channel_open(self->seat, self->count, self->in[0], self->in[1])) \
    CALL(channel, channel_begin_send, fak_channel_begin_send(seat_of(self), sent(self, 0))) \
    CALL(channel, channel_begin_receive, fak_channel_begin_receive(seat_of(self))) \
    CALL(channel, channel_begin_try_send, fak_channel_begin_try_send(seat_of(self), sent(self, 0))) \
    CALL(channel, channel_begin_try_receive, fak_channel_begin_try_receive(seat_of(self))) \
    CALL(channel, channel_begin_close, fak_channel_begin_close(seat_of(self))) \
    CALL(channel, channel_step, fak_channel_step(seat_of(self), received(self), word_at(self, 0))) \
    CALL(channel, channel_steps, run_steps(self)) \
    CALL(channel, channel_give_up, fak_channel_give_up(seat_of(self), received(self))) \
    CALL(channel, channel_len, fak_channel_len(seat_of(self), word_at(self, 0))) \
    CALL(channel, channel_is_closed, fak_channel_is_closed(seat_of(self), truth_at(self, 0))) \
    CALL(channel, channel_state, fak_channel_state(seat_of(self), word_at(self, 0), state_at(self, 1), word_at(self, 2)))

#define END_CALLS(CALL) \
    CALL(open, channel_open_ends, fak_channel_open_ends(&ends[self->index], self->count, self->in[0], self->in[1])) \
    CALL(any, channel_send, fak_channel_send(&ends[self->index], sent(self, 0))) \
    CALL(any, channel_receive, fak_channel_receive(&ends[self->index], received(self))) \
    CALL(any, channel_try_send, fak_channel_try_send(&ends[self->index], sent(self, 0))) \
    CALL(any, channel_try_receive, fak_channel_try_receive(&ends[self->index], received(self))) \
    CALL(any, channel_send_until, fak_channel_send_until(&ends[self->index], sent(self, 1), self->in[0])) \
    CALL(any, channel_receive_until, fak_channel_receive_until(&ends[self->index], received(self), self->in[0])) \
    CALL(any, channel_close, fak_channel_close(&ends[self->index])) \
    CALL(any, channel_leave, fak_channel_leave(&ends[self->index])) \
    CALL(any, channel_leave_with, fak_channel_leave_with(&ends[self->index], note, dropped(self))) \
    CALL(any, channel_move, fak_channel_move(&ends[self->index], &ends[self->other_index]))

#define SHARED_CALLS(CALL) \
    CALL(any, channel_shared_open, fak_channel_shared_open(&shared[self->index], shared_ends, self->in[0], self->in[1], self->in[2], \
        self->in[3])) \
    CALL(any, channel_shared_over, fak_channel_shared_over(&shared[self->index], &ends[self->other_index], self->in[0], self->in[1])) \
    CALL(any, channel_shared_send, fak_channel_shared_send(&shared[self->index], sent(self, 0))) \
    CALL(any, channel_shared_receive, fak_channel_shared_receive(&shared[self->index], received(self))) \
    CALL(any, channel_shared_send_until, fak_channel_shared_send_until(&shared[self->index], sent(self, 1), self->in[0])) \
    CALL(any, channel_shared_receive_until, fak_channel_shared_receive_until(&shared[self->index], received(self), self->in[0])) \
    CALL(any, channel_shared_try_send, fak_channel_shared_try_send(&shared[self->index], sent(self, 0))) \
    CALL(any, channel_shared_try_receive, fak_channel_shared_try_receive(&shared[self->index], received(self))) \
    CALL(any, channel_shared_close, fak_channel_shared_close(&shared[self->index])) \
    CALL(any, channel_shared_len, fak_channel_shared_len(&shared[self->index], word_at(self, 0))) \
    CALL(any, channel_shared_is_closed, fak_channel_shared_is_closed(&shared[self->index], truth_at(self, 0))) \
    CALL(any, channel_shared_leave, fak_channel_shared_leave(&shared[self->index])) \
    CALL(any, channel_shared_leave_with, fak_channel_shared_leave_with(&shared[self->index], note, dropped(self)))

#define LENDING_CALLS(CALL) \
    CALL(any, channel_lending_open, fak_channel_lending_open(&lendings[self->index], self->in[0])) \
    CALL(any, channel_lending_borrow, fak_channel_lending_borrow(&lendings[self->index], self->in[0] == 1, word_at(self, 0))) \
    CALL(any, channel_lending_look_again, fak_channel_lending_look_again(&lendings[self->index], self->in[0] == 1, word_at(self, 0), \
        truth_at(self, 1))) \
    CALL(any, channel_lending_give_back, fak_channel_lending_give_back(&lendings[self->index], self->in[0], truth_at(self, 0))) \
    CALL(any, channel_lending_retire, fak_channel_lending_retire(&lendings[self->index], self->in[0], truth_at(self, 0))) \
    CALL(any, channel_lending_is_at_rest, fak_channel_lending_is_at_rest(&lendings[self->index], truth_at(self, 0)))

STEP_CALLS(DEFINE_CALL)
END_CALLS(DEFINE_CALL)
SHARED_CALLS(DEFINE_CALL)
LENDING_CALLS(DEFINE_CALL)

const bool is_for_c = true;

const named_call calls_of_channels[] = {
    STEP_CALLS(LIST_CALL) END_CALLS(LIST_CALL) SHARED_CALLS(LIST_CALL) LENDING_CALLS(LIST_CALL){NULL, NULL, NULL}};

bool others_leave(void) {
    bool have_left = true;
    for (size_t i = 0; i < 26; i++) {
        bool is_open = shared[i].ends != NULL && shared[i].ends[0].seat.at != NULL;
        lendings[i] = (fak_channel_lending){0};
        have_left = (!is_open || fak_channel_shared_leave(&shared[i]) == FAK_C_OK) && have_left;
    }
    for (size_t i = 0; i < LOWER_HANDLES; i++)
        have_left = (ends[i].seat.at == NULL || fak_channel_leave(&ends[i]) == FAK_C_OK) && have_left;
    return have_left;
}
