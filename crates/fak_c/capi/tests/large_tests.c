/* Large objects, in memory of the caller: each kind with up to 1,024 seats, queues of many cells, and 128 threads whose seats come
 * after the first 64. The largest queue has 2^N cells; N is the word after the program's name. The program has no other heap for the
 * library. */
#include "objects.h"
#include "sharers.h"

#include <pthread.h>

static fak_c_seat seats[KINDS][LARGE_SEATS];

/* ---- Openings ---- */

static size_t used; /* of the last block */

/* Opens in a block of the bytes that block.h says. */
static void *opened_block(int kind, size_t n, uint64_t size, uint64_t stint) {
    size_t bytes = bytes_of(kind, n, size);
    void *block = malloc(bytes);
    CHECK(block != NULL && opened_in(block, bytes, kind, seats[kind], n, size, stint, &used) == FAK_C_OK);
    return block;
}

/* The block is freed when the last seat has left. */
static void leave_block(void *block, int kind, size_t n) {
    all_leave(block, seats[kind], n);
    free(block);
}

/* Steps until the call is done. */
static void end_call(fak_c_seat *end, fak_channel_item *item) {
    uint64_t number = 0;
    int32_t code;
    while ((code = fak_channel_step(end, item, &number)) == FAK_C_NOT_YET)
        continue;
    CHECK(code == FAK_C_OK);
}

/* Sends an item, and receives it. */
static void pass_one(fak_c_seat *end) {
    fak_channel_item item = fak_channel_of_word(7);
    CHECK(fak_channel_begin_send(end, &item) == FAK_C_OK);
    end_call(end, &item);
    item.word[0] = 0;
    CHECK(fak_channel_begin_receive(end) == FAK_C_OK);
    end_call(end, &item);
    CHECK(item.word[0] == 7);
}

/* The seat performs a call of its kind, and another that undoes it. */
static void use(fak_c_seat *seat, int kind) {
    uint64_t item = 0;
    int64_t found = 99;
    switch (kind) {
    case QUEUE:
        CHECK(fak_c_put(seat, 7, NULL) == FAK_C_OK && fak_c_get(seat, NULL, &item) == FAK_C_OK && item == 7);
        break;
    case SEMAPHORE:
        CHECK(fak_c_sem_claim_up(seat) == FAK_C_OK && fak_c_sem_claim_down(seat, 7) == FAK_C_OK);
        break;
    case ROOM:
        CHECK(fak_c_room_tir(seat, 2, &found) == FAK_C_OK && found == 0);
        CHECK(fak_c_room_release(seat, 2, &found) == FAK_C_OK && found == 2);
        break;
    case CREDIT:
        CHECK(fak_c_credit_credit(seat, &found) == FAK_C_OK && fak_c_credit_debit(seat, &found) == FAK_C_OK);
        break;
    case CHANNEL:
        pass_one(seat);
        break;
    default:
        CHECK(fak_c_files_try_write(seat, &found) == FAK_C_OK && fak_c_files_end(seat) == FAK_C_OK);
    }
}

/* A stint or a number of seats beyond is refused, and less memory too. */
static void more_is_refused(int kind, size_t n, uint64_t size, size_t needed) {
    void *block = malloc(needed);
    fak_c_seat *handles = seats[kind];
    CHECK(block != NULL && opened_in(block, needed, kind, handles, n, size, LARGE_CALLS / n + 1, &used) == FAK_C_BAD_LIMIT);
    CHECK(opened_in(block, needed, kind, handles, LARGE_SEATS + 1, size, 1, &used) == FAK_C_BAD_LIMIT);
    for (size_t bytes = 64; bytes < needed; bytes += needed / 50)
        CHECK(opened_in(block, bytes, kind, handles, n, size, 1, &used) == FAK_C_MEMORY && fak_c_block_is_free(block));
    free(block);
}

/* Each kind opens with many seats, and each seat is one of the object's. */
static void many_seats_are_opened(void) {
    static const size_t numbers[] = {65, 1000, LARGE_SEATS};
    static const uint64_t sizes[] = {5, 4097, 65536};
    for (int kind = 0; kind < KINDS; kind++) {
        for (size_t i = 0; i < sizeof numbers / sizeof *numbers; i++) {
            size_t n = numbers[i], needed;
            void *block = opened_block(kind, n, sizes[i], LARGE_CALLS / n);
            needed = used;
            for (size_t seat = 0; seat < n; seat++)
                use(&seats[kind][seat], kind);
            leave_block(block, kind, n);
            more_is_refused(kind, n, sizes[i], needed);
        }
    }
}

/* ---- Many cells ---- */

/* A queue is filled, found full and emptied, twice: each ticket and each item is the one that comes next. */
static void a_queue_goes_round(uint64_t size) {
    fak_c_seat *seat = seats[QUEUE];
    void *block = opened_block(QUEUE, 2, size, LARGE_CALLS / 2);
    uint64_t ticket = 0, item = 0;
    for (uint64_t round = 0; round < 2; round++) {
        for (uint64_t i = 0; i < size; i++)
            CHECK(fak_c_put(&seat[0], 3 * i + round, &ticket) == FAK_C_OK && ticket == round * size + i);
        CHECK(fak_c_put(&seat[1], 9, NULL) == FAK_C_FULL);
        for (uint64_t i = 0; i < size; i++)
            CHECK(fak_c_get(&seat[1], &ticket, &item) == FAK_C_OK && ticket == round * size + i && item == 3 * i + round);
        CHECK(fak_c_get(&seat[0], NULL, &item) == FAK_C_EMPTY);
    }
    leave_block(block, QUEUE, 2);
}

/* ---- Threads on seats after the first 64 ---- */

enum { FIRST = 64, THREADS = 128, ROUNDS = 40, CELLS = 5000, BOUND = 100, TOKENS = 3 };

static atomic_int taken[THREADS * ROUNDS]; /* how often each item was taken out */
static atomic_int is_woken[THREADS];
static atomic_int inside;

static uint64_t gets_one(fak_c_seat *seat) {
    uint64_t item = 0;
    int32_t code;
    while ((code = fak_c_get(seat, NULL, &item)) == FAK_C_EMPTY)
        sched_yield();
    while (code == FAK_C_NOT_YET) {
        sched_yield();
        code = fak_c_try_take(seat, &item);
    }
    CHECK(code == FAK_C_OK);
    return item;
}

static void puts_one(fak_c_seat *seat, uint64_t item) {
    int32_t code = fak_c_put(seat, item, NULL);
    while (code == FAK_C_NOT_YET) {
        sched_yield();
        code = fak_c_try_fill(seat);
    }
    CHECK(code == FAK_C_OK);
}

/* Claims a part of the room and gives it back, and counts in the table and in the credit. */
static void count(size_t at) {
    int64_t found = 0;
    uint64_t inode = 0, uses = 0;
    int32_t code;
    while ((code = fak_c_room_tir(&seats[ROOM][at], 3, &found)) == FAK_C_FULL)
        sched_yield();
    CHECK(code == FAK_C_OK && found <= BOUND - 3);
    CHECK(fak_c_room_release(&seats[ROOM][at], 3, &found) == FAK_C_OK && found >= 3);
    while ((code = fak_c_files_try_write(&seats[FILES][at], &found)) == FAK_C_BUSY)
        sched_yield();
    CHECK(code == FAK_C_OK && fak_c_files_get(&seats[FILES][at], 1, &inode, &uses) == FAK_C_OK);
    CHECK(fak_c_files_set_uses(&seats[FILES][at], 1, uses + 1) == FAK_C_OK && fak_c_files_end(&seats[FILES][at]) == FAK_C_OK);
    CHECK(fak_c_credit_credit(&seats[CREDIT][at], &found) == FAK_C_OK);
}

/* The thread of this number has the seats after the first 64. */
static void *share(void *number) {
    uint64_t me = *(const uint64_t *)number;
    size_t at = FIRST + me;
    for (uint64_t round = 0; round < ROUNDS; round++) {
        puts_one(&seats[QUEUE][at], me * ROUNDS + round);
        down(&seats[SEMAPHORE][at], me, is_woken);
        CHECK(atomic_fetch_add(&inside, 1) < TOKENS);
        count(at);
        atomic_fetch_sub(&inside, 1);
        up(&seats[SEMAPHORE][at], is_woken, THREADS);
        uint64_t item = gets_one(&seats[QUEUE][at]);
        CHECK(item < THREADS * ROUNDS && atomic_fetch_add(&taken[item], 1) == 0);
    }
    return NULL;
}

/* What the objects say once the threads have ended: each item was taken out once, and each count is that of all threads. */
static void check_counts(void) {
    int64_t value = 0;
    uint64_t left = 0, inode = 0, uses = 0, item = 0;
    for (size_t i = 0; i < THREADS * ROUNDS; i++)
        CHECK(atomic_load(&taken[i]) == 1);
    CHECK(fak_c_get(&seats[QUEUE][0], NULL, &item) == FAK_C_EMPTY);
    CHECK(fak_c_credit_value(&seats[CREDIT][0], &value, &left) == FAK_C_OK && value == BOUND + THREADS * ROUNDS);
    CHECK(fak_c_files_try_read(&seats[FILES][0], &value) == FAK_C_OK);
    CHECK(fak_c_files_get(&seats[FILES][0], 1, &inode, &uses) == FAK_C_OK && uses == THREADS * ROUNDS);
    CHECK(fak_c_files_end(&seats[FILES][0]) == FAK_C_OK);
    CHECK(fak_c_room_tir(&seats[ROOM][0], BOUND, &value) == FAK_C_OK && value == 0);
    CHECK(fak_c_room_release(&seats[ROOM][0], BOUND, &value) == FAK_C_OK && value == BOUND);
}

static void threads_share_each_kind(void) {
    static const uint64_t sizes[KINDS] = {CELLS, THREADS, BOUND, BOUND, 1, CELLS};
    enum { SEATS = FIRST + THREADS };
    static pthread_t threads[THREADS];
    static uint64_t numbers[THREADS];
    void *blocks[KINDS];
    for (int kind = 0; kind < KINDS; kind++)
        blocks[kind] = opened_block(kind, SEATS, sizes[kind], LARGE_CALLS / SEATS);
    for (int token = 0; token < TOKENS; token++)
        CHECK(fak_c_sem_claim_up(&seats[SEMAPHORE][0]) == FAK_C_OK);
    for (uint64_t i = 0; i < THREADS; i++) {
        numbers[i] = i;
        CHECK(pthread_create(&threads[i], NULL, share, &numbers[i]) == 0);
    }
    for (size_t i = 0; i < THREADS; i++)
        CHECK(pthread_join(threads[i], NULL) == 0);
    check_counts();
    for (int kind = 0; kind < KINDS; kind++)
        leave_block(blocks[kind], kind, SEATS);
}

int main(int count_of_words, char **words) {
    int most = count_of_words == 2 ? atoi(words[1]) : 0;
    CHECK(most >= 12 && most <= 24);
    many_seats_are_opened();
    a_queue_goes_round(4097);
    a_queue_goes_round(65535);
    a_queue_goes_round(UINT64_C(1) << most);
    threads_share_each_kind();
    printf("the largest queue had %lu cells\n", 1UL << most);
    return 0;
}
