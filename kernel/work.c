/* The threads' program: tokens go around a ring of semaphores. With a token a thread takes a page and some frames, marks them, lets others
 * run, and checks its marks: so no two threads have the same page, and none runs on two processors. The tokens that are out of each
 * semaphore are counted separately: so no down passes without a token. */
#include "kernel.h"

static _Atomic int64_t out[SEMAPHORES]; /* tokens that were taken from each semaphore, less those that were given to it */

/* The add must follow the down, and the subtraction must come before the up. So the count is never above the tokens that are out, and one
 * above TOKENS means that a down passed without a token. */
static void take_token(thread *me, uint64_t semaphore) {
    down(ring[semaphore], me);
    if (atomic_fetch_add(&out[semaphore], 1) >= TOKENS)
        fail("a token too many was taken from semaphore", semaphore);
}

static void give_token(uint64_t semaphore) {
    atomic_fetch_sub(&out[semaphore], 1);
    up(ring[semaphore]);
}

/* Checks that each semaphore was given as many tokens as were taken from it. */
void check_tokens_given(void) {
    for (uint64_t i = 0; i < SEMAPHORES; i++)
        if (atomic_load(&out[i]) != 0)
            fail("not as many tokens were given as taken, semaphore", i);
}

static uint64_t *take_page(thread *me) {
    uint64_t *page;
    while ((page = get(&free_pages[processor()])) == NULL) {
        this_processor()->no_page++;
        stop(me, YIELD);
    }
    return page;
}

static void mark_page(uint64_t *page, uint64_t mark) {
    for (unsigned i = 0; i < PAGE / 8; i++)
        page[i] = mark;
}

static void check_marks(const uint64_t *page, uint64_t mark, const char *what, uint64_t thread) {
    for (unsigned i = 0; i < PAGE / 8; i++)
        if (page[i] != mark)
            fail(what, thread);
}

/* Unless there are few, there are more frames than the threads and the caches hold, so the list is never empty. */
static uint64_t *wait_for_frame(thread *me) {
    uint64_t *frame;
    while ((frame = take_frame()) == NULL) {
        if (FEW_FRAMES == 0)
            fail("no page frame", 0);
        this_processor()->no_frame++;
        stop(me, YIELD);
    }
    return frame;
}

static void take_frames(thread *me, uint64_t **held, uint64_t mark) {
    for (int i = 0; i < FRAMES_HELD; i++) {
        held[i] = wait_for_frame(me);
        mark_page(held[i], mark + (uint64_t)i);
    }
}

/* Checks the marks and gives the frames back, maybe on another processor than the one that took them. */
static void give_frames(uint64_t **held, uint64_t mark, uint64_t thread) {
    for (int i = 0; i < FRAMES_HELD; i++) {
        check_marks(held[i], mark + (uint64_t)i, "page frame not its own of thread", thread);
        give_frame(held[i]);
    }
}

void work(thread *me) {
    for (uint64_t round = 0; round < ROUNDS; round++) {
        uint64_t mark = me->number << 32 | round * FRAMES_HELD, *held[FRAMES_HELD];
        take_token(me, me->number % SEMAPHORES);
        uint64_t *page = take_page(me);
        mark_page(page, mark);
        take_frames(me, held, mark);
        switch ((round + me->number) % 4) {
        case 0:
            stop(me, SLEEP);
            break;
        case 1:
            ask_for_alarm();
            down(alarm_clock.threads, me);
            break;
        default:
            stop(me, YIELD);
        }
        if (!hold_sse(mark, 2000))
            fail("SSE register lost by thread", me->number);
        check_marks(page, mark, "page not its own of thread", me->number);
        give_frames(held, mark, me->number);
        put(&free_pages[processor()], page);
        give_token((me->number + 1) % SEMAPHORES);
    }
}
