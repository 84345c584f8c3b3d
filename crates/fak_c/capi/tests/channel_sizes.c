/* How much stack the calls of a channel use, by steps and by ends, how many bytes a channel keeps of the heap, and how many it needs while
 * it opens: what fak_channel.h says of each. The heap counts. */
#include "fak_channel.h"
#include "stack_and_heap.h"
#include "tests.h"

enum { ENDS = 4, CELLS = 2 };

static fak_c_seat ends[ENDS];

/* ---- Stack ---- */

static void open_all(void) { CHECK(fak_channel_open(ends, ENDS, CELLS, 1000) == FAK_C_OK); }

static void leave_all(void) {
    for (int i = 0; i < ENDS; i++)
        CHECK(fak_c_leave(&ends[i]) == FAK_C_OK);
}

/* Kept off the stack, which is measured. */
static fak_channel_item item;
static uint64_t number, left;
static uint32_t state;
static bool is_closed;

/* The open call, until it is done or sleeps. */
static int32_t run_steps(fak_c_seat *end) {
    int32_t code;
    do
        code = fak_channel_step(end, &item, &number);
    while (code == FAK_C_NOT_YET || code == FAK_C_WAKES);
    return code;
}

/* Sends and receives that pass, sleep, wake, give up, and find the channel closed. */
static void use_all(void) {
    for (int i = 0; i < CELLS; i++)
        CHECK(fak_channel_begin_send(&ends[0], &item) == FAK_C_OK && run_steps(&ends[0]) == FAK_C_OK);
    CHECK(fak_channel_begin_send(&ends[0], &item) == FAK_C_OK && run_steps(&ends[0]) == FAK_C_SLEEPS);
    CHECK(fak_channel_begin_send(&ends[1], &item) == FAK_C_OK && run_steps(&ends[1]) == FAK_C_SLEEPS);
    CHECK(fak_channel_give_up(&ends[1], &item) == FAK_C_GAVE_UP && fak_channel_begin_try_send(&ends[1], &item) == FAK_C_FULL);
    CHECK(fak_channel_begin_receive(&ends[2]) == FAK_C_OK && run_steps(&ends[2]) == FAK_C_OK && run_steps(&ends[0]) == FAK_C_OK);
    for (int i = 0; i < CELLS; i++)
        CHECK(fak_channel_begin_try_receive(&ends[2]) == FAK_C_OK && run_steps(&ends[2]) == FAK_C_OK);
    CHECK(fak_channel_begin_try_receive(&ends[2]) == FAK_C_EMPTY);
    CHECK(fak_channel_begin_receive(&ends[2]) == FAK_C_OK && run_steps(&ends[2]) == FAK_C_SLEEPS);
    CHECK(fak_channel_len(&ends[2], &left) == FAK_C_OK && fak_channel_is_closed(&ends[2], &is_closed) == FAK_C_OK);
    CHECK(fak_channel_state(&ends[2], &number, &state, &left) == FAK_C_OK);
    CHECK(fak_channel_begin_close(&ends[3]) == FAK_C_OK && run_steps(&ends[3]) == FAK_C_OK && run_steps(&ends[2]) == FAK_C_CLOSED);
    CHECK(fak_channel_begin_send(&ends[0], &item) == FAK_C_OK && run_steps(&ends[0]) == FAK_C_CLOSED);
}

static fak_channel_shared shared;
static fak_channel_end shared_ends[FAK_CHANNEL_SHARED_ENDS(1, 1)];

static void drop(void *context, const fak_channel_item *dropped) { *(uint64_t *)context += dropped->word[0]; }

/* Calls of a shared channel, which are those of ends. One gives up at once. */
static void use_shared(void) {
    for (int i = 0; i < CELLS; i++)
        CHECK(fak_channel_shared_send(&shared, &item) == FAK_C_OK);
    CHECK(fak_channel_shared_try_send(&shared, &item) == FAK_C_FULL && fak_channel_shared_send_until(&shared, &item, 1) == FAK_C_GAVE_UP);
    CHECK(fak_channel_shared_receive(&shared, &item) == FAK_C_OK && fak_channel_shared_try_receive(&shared, &item) == FAK_C_OK);
    CHECK(fak_channel_shared_receive_until(&shared, &item, 1) == FAK_C_GAVE_UP && fak_channel_shared_len(&shared, &left) == FAK_C_OK);
    CHECK(fak_channel_shared_close(&shared) == FAK_C_OK && fak_channel_shared_receive(&shared, &item) == FAK_C_CLOSED);
}

/* The stack of these calls. The first run binds what is linked late. */
static size_t depth_of_shared(void) {
    size_t depth = 0;
    for (int i = 0; i < 2; i++) {
        CHECK(fak_channel_shared_open(&shared, shared_ends, 1, 1, CELLS, 1000) == FAK_C_OK);
        depth = depth_of(use_shared);
        CHECK(fak_channel_shared_leave_with(&shared, drop, &left) == FAK_C_OK);
    }
    return depth;
}

/* ---- Heap ---- */

static fak_c_seat many[LARGE_SEATS];

/* A channel keeps what the header says. It needs no more of a block than the header says, with a head of 32 bytes, and gives all back. */
static void keeps(size_t n, uint64_t size) {
    heap_taken = 32;
    CHECK(fak_channel_open(many, n, size, 1000) == FAK_C_OK);
    CHECK(heap_in_use == FAK_CHANNEL_KEEPS(n, size));
    CHECK(heap_taken <= FAK_CHANNEL_BYTES(n, size) && heap_taken + 256 >= FAK_CHANNEL_BYTES(n, size));
    for (size_t i = 0; i < n; i++)
        CHECK(fak_c_leave(&many[i]) == FAK_C_OK);
    CHECK(heap_in_use == 0);
}

int main(void) {
    static const uint64_t sizes[] = {1, 2, 7, 64, 1000, 4096, 65537};
    size_t opening = depth_of(open_all), other = depth_of(use_all), leaving = depth_of(leave_all), by_ends = depth_of_shared();
    CHECK(heap_in_use == 0);
    for (size_t i = 0; i < sizeof sizes / sizeof *sizes; i++)
        for (size_t n = 1; n <= LARGE_SEATS; n += n < 70 ? 1 : 159)
            keeps(n, sizes[i]);
    printf("stack: %zu bytes in a call that opens, %zu in fak_c_leave, %zu in others, %zu in those of ends\n", opening, leaving, other,
        by_ends);
    CHECK(opening < 8192 && leaving < 4608 && other < 768 && by_ends < 768 + 512);
    return 0;
}
