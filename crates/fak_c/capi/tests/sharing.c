/* Threads that share a semaphore, a room, a credit and a file table; and memory that is handed over by its pointer. */
#include "sharers.h"

#include <pthread.h>

enum { THREADS = 4, START = 2, BOUND = 7, AMOUNT = 3 };

static fak_c_seat semaphore[THREADS], room[THREADS], credit[THREADS], files[THREADS];
static atomic_int inside;
static atomic_int is_woken[THREADS];

/* What one thread works with. */
typedef struct {
    pthread_t thread;
    size_t number;
    uint64_t rounds;
} sharer;

/* Claims an amount and gives it back. */
static void use_the_room(size_t me) {
    int64_t found = 0;
    int32_t code;
    while ((code = fak_c_room_tir(&room[me], AMOUNT, &found)) == FAK_C_FULL)
        sched_yield();
    CHECK(code == FAK_C_OK && found <= BOUND - AMOUNT);
    CHECK(fak_c_room_release(&room[me], AMOUNT, &found) == FAK_C_OK && found >= AMOUNT);
}

/* Adds 1 to a field of the table, as its only writer. */
static void count_in_the_table(size_t me) {
    int64_t count = 0;
    uint64_t inode = 0, uses = 0;
    int32_t code;
    while ((code = fak_c_files_try_write(&files[me], &count)) == FAK_C_BUSY)
        sched_yield();
    CHECK(code == FAK_C_OK);
    CHECK(fak_c_files_get(&files[me], 1, &inode, &uses) == FAK_C_OK && inode == uses);
    CHECK(fak_c_files_set_uses(&files[me], 1, uses + 1) == FAK_C_OK);
    CHECK(fak_c_files_set_inode(&files[me], 1, uses + 1) == FAK_C_OK);
    CHECK(fak_c_files_end(&files[me]) == FAK_C_OK);
}

static void *share(void *argument) {
    const sharer *self = argument;
    int64_t found = 0;
    for (uint64_t round = 0; round < self->rounds; round++) {
        down(&semaphore[self->number], self->number, is_woken);
        CHECK(atomic_fetch_add(&inside, 1) < START);
        if (round % 7 == 0)
            sched_yield();
        use_the_room(self->number);
        count_in_the_table(self->number);
        CHECK(fak_c_credit_credit(&credit[self->number], &found) == FAK_C_OK);
        atomic_fetch_sub(&inside, 1);
        up(&semaphore[self->number], is_woken, THREADS);
    }
    return NULL;
}

/* The semaphore is as it began: the downs up to its start pass, and one more parks, as the only one that waits. */
static void check_tokens(fak_c_seat *seat) {
    uint64_t woken = 0;
    for (int i = 0; i < START; i++)
        CHECK(fak_c_sem_claim_down(seat, THREADS) == FAK_C_OK);
    CHECK(fak_c_sem_claim_down(seat, THREADS) == FAK_C_PARKS && fak_c_sem_try_park(seat) == FAK_C_OK);
    CHECK(fak_c_sem_claim_up(seat) == FAK_C_WAKES && fak_c_sem_try_wake(seat, &woken) == FAK_C_OK && woken == THREADS);
}

/* What the objects say once the threads have ended. */
static void check_counts(uint64_t total) {
    int64_t value = 0, count = 0, found = 99;
    uint64_t left = 0, inode = 0, uses = 0, held = 99;
    check_tokens(&semaphore[0]);
    CHECK(fak_c_room_tir(&room[0], BOUND, &found) == FAK_C_OK && found == 0);
    CHECK(fak_c_room_release(&room[0], BOUND, &found) == FAK_C_OK && found == BOUND);
    CHECK(fak_c_credit_value(&credit[0], &value, &left) == FAK_C_OK && value == (int64_t)total);
    CHECK(fak_c_files_try_read(&files[0], &count) == FAK_C_OK);
    CHECK(fak_c_files_get(&files[0], 1, &inode, &uses) == FAK_C_OK && uses == total && inode == total);
    CHECK(fak_c_files_end(&files[0]) == FAK_C_OK);
    for (size_t i = 0; i < THREADS; i++) {
        CHECK(fak_c_room_state(&room[i], &held, &left) == FAK_C_OK && held == 0);
        CHECK(fak_c_leave(&semaphore[i]) == FAK_C_OK && fak_c_leave(&room[i]) == FAK_C_OK);
        CHECK(fak_c_leave(&credit[i]) == FAK_C_OK && fak_c_leave(&files[i]) == FAK_C_OK);
    }
}

void threads_share_objects(uint64_t rounds) {
    sharer sharers[THREADS];
    CHECK(fak_c_sem_open(semaphore, THREADS, START, THREADS, LONG_STINT) == FAK_C_OK);
    CHECK(fak_c_room_open(room, THREADS, BOUND, LONG_STINT) == FAK_C_OK);
    CHECK(fak_c_credit_open(credit, THREADS, 0, LONG_STINT) == FAK_C_OK);
    CHECK(fak_c_files_open(files, THREADS, 2, LONG_STINT) == FAK_C_OK);
    for (size_t i = 0; i < THREADS; i++) {
        sharers[i].number = i;
        sharers[i].rounds = rounds;
        CHECK(pthread_create(&sharers[i].thread, NULL, share, &sharers[i]) == 0);
    }
    for (size_t i = 0; i < THREADS; i++)
        CHECK(pthread_join(sharers[i].thread, NULL) == 0);
    check_counts(THREADS * rounds);
}

/* ---- Memory that is handed over ---- */

enum { WORDS = 16 };

typedef struct {
    pthread_t thread;
    fak_c_seat *seat;
    uint64_t items;
} sender;

/* Fills memory of its own and hands it over. */
static void *send(void *argument) {
    sender *self = argument;
    int32_t code;
    for (uint64_t item = 0; item < self->items; item++) {
        uint64_t *words = malloc(WORDS * sizeof *words);
        CHECK(words != NULL);
        for (int i = 0; i < WORDS; i++)
            words[i] = item;
        FAK_C_GIVES(words);
        while ((code = fak_c_put(self->seat, (uintptr_t)words, NULL)) == FAK_C_FULL)
            sched_yield();
        while (code == FAK_C_NOT_YET)
            code = fak_c_try_fill(self->seat);
        CHECK(code == FAK_C_OK);
    }
    return NULL;
}

void memory_is_handed_over(uint64_t items) {
    fak_c_seat seats[2] = {0};
    sender self = {.seat = &seats[0], .items = items};
    CHECK(fak_c_open(seats, 2, 8, LONG_STINT) == FAK_C_OK);
    CHECK(pthread_create(&self.thread, NULL, send, &self) == 0);
    for (uint64_t item = 0; item < items; item++) {
        uint64_t at = 0;
        int32_t code;
        while ((code = fak_c_get(&seats[1], NULL, &at)) == FAK_C_EMPTY)
            sched_yield();
        while (code == FAK_C_NOT_YET)
            code = fak_c_try_take(&seats[1], &at);
        CHECK(code == FAK_C_OK);
        uint64_t *words = (uint64_t *)(uintptr_t)at;
        FAK_C_GETS(words);
        for (int i = 0; i < WORDS; i++)
            CHECK(words[i] == item);
        free(words);
    }
    CHECK(pthread_join(self.thread, NULL) == 0);
    CHECK(fak_c_leave(&seats[0]) == FAK_C_OK && fak_c_leave(&seats[1]) == FAK_C_OK);
}
