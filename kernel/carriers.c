/* With few page frames, each processor's handler carries frames: it takes one from their list and gives it back. It takes one step at a
 * tick, so each of its claims stays open until a later tick. Meanwhile the claim's cell is in the way of the bursts, which go on with what
 * they have. The handler never waits, so it ends the claim for which its own processor waits. */
#include "kernel.h"

typedef struct {
    enum { EMPTY, TAKES, GIVES } step;
    uint64_t frame;
} carrier;

static carrier carriers[PROCESSORS];

/* Whether the try has ended the call. */
static bool is_done(int32_t code) {
    if (code == FAK_C_NOT_YET)
        return false;
    expect_ok(code, "the carrier's try");
    return true;
}

void carry_frame(uint32_t number) {
    carrier *carrier = &carriers[number];
    fak_c_seat *seat = &frame_carriers[number];
    uint64_t ticket = 0;
    int32_t code;
    switch (carrier->step) {
    case EMPTY:
        code = fak_c_claim_delete(seat, &ticket);
        if (code == FAK_C_EMPTY)
            return;
        expect_ok(code, "the carrier's claim_delete");
        carrier->step = TAKES;
        break;
    case TAKES:
        if (!is_done(fak_c_try_take(seat, &carrier->frame)))
            return;
        expect_ok(fak_c_claim_insert(seat, carrier->frame, &ticket), "the carrier's claim_insert");
        carrier->step = GIVES;
        break;
    case GIVES:
        if (!is_done(fak_c_try_fill(seat)))
            return;
        processor_states[number].carried++;
        carrier->step = EMPTY;
    }
}

/* Ends all that is open, once no other processor runs. A claim may wait for another carrier's. */
void end_carrying(uint32_t n) {
    for (bool again = FEW_FRAMES > 0; again;) {
        again = false;
        for (uint32_t i = 0; i < n; i++) {
            if (carriers[i].step == EMPTY)
                continue;
            carry_frame(i);
            again = true;
        }
    }
}
