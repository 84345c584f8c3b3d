/* The objects that processors share, opened in a block of the kernel's own memory. Each is opened over an array of handles, and then each
 * seat is moved to its processor's place. */
#include "kernel.h"

#include "block.h"

shared_object ready, sleeping, alarm_clock;
fak_c_seat free_pages[PROCESSORS];
fak_c_seat ring[SEMAPHORES][PROCESSORS];
unsigned char page_frames[PAGES][PAGE] __attribute__((aligned(PAGE)));

enum {
    MOST_SEATS = 2 * PROCESSORS,
    BLOCK = 2 * FAK_C_QUEUE_BYTES(MOST_SEATS, THREADS) + FAK_C_QUEUE_BYTES(PROCESSORS, PAGES)
        + FAK_C_SEM_BYTES(MOST_SEATS, THREADS) + SEMAPHORES * FAK_C_SEM_BYTES(PROCESSORS, THREADS)
};

static const uint64_t stint = UINT64_C(1) << 40;
static unsigned char block[BLOCK] __attribute__((aligned(16)));

static void move_all(fak_c_seat *opened, fak_c_seat *places, uint32_t n) {
    for (uint32_t i = 0; i < n; i++)
        expect_ok(fak_c_move(&opened[i], &places[i]), "move");
}

static void open_list(shared_object *list, uint32_t n) {
    static fak_c_seat opened[MOST_SEATS];
    expect_ok(fak_c_open(opened, 2 * n, THREADS, stint), "open a list");
    move_all(opened, list->threads, n);
    move_all(opened + n, list->handlers, n);
}

void open_objects(uint32_t n) {
    static fak_c_seat opened[MOST_SEATS];
    fak_c_block_begin(block, sizeof block);
    open_list(&ready, n);
    open_list(&sleeping, n);
    expect_ok(fak_c_sem_open(opened, 2 * n, 0, THREADS, stint), "open the alarm");
    move_all(opened, alarm_clock.threads, n);
    move_all(opened + n, alarm_clock.handlers, n);
    expect_ok(fak_c_open(free_pages, n, PAGES, stint), "open the free pages");
    for (int i = 0; i < SEMAPHORES; i++)
        expect_ok(fak_c_sem_open(ring[i], n, TOKENS, THREADS, stint), "open a semaphore");
    say("%u processors; 3 queues and %u semaphores in %u bytes\n", (uint64_t)n, (uint64_t)SEMAPHORES + 1, (uint64_t)fak_c_block_end());
    for (int i = 0; i < PAGES; i++)
        put(&free_pages[0], page_frames[i]);
}

static void leave_seats(fak_c_seat *seats, uint32_t n, const char *what) {
    for (uint32_t i = 0; i < n; i++)
        expect_ok(fak_c_leave(&seats[i]), what);
}

/* Gives all seats up, and checks that the block is free then. */
void leave_objects(uint32_t n) {
    leave_seats(ready.threads, n, "leave ready");
    leave_seats(ready.handlers, n, "leave ready");
    leave_seats(sleeping.threads, n, "leave sleeping");
    leave_seats(sleeping.handlers, n, "leave sleeping");
    leave_seats(alarm_clock.threads, n, "leave the alarm");
    leave_seats(alarm_clock.handlers, n, "leave the alarm");
    leave_seats(free_pages, n, "leave the free pages");
    for (int i = 0; i < SEMAPHORES; i++)
        leave_seats(ring[i], n, "leave a semaphore");
    if (!fak_c_block_is_free(block))
        fail("memory in use at the end", 0);
}
