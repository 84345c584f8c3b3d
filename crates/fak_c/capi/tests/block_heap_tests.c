/* block.c next to a heap: threads that open objects in blocks of their own, at once, and others in the heap. Compiled, as block.c, with
 * FAK_C_BLOCK_AND_HEAP. */
#include "objects.h"
#include "tests.h"

#include <pthread.h>

enum { THREADS = 4, SEATS = 3, CELLS = 16 };

/* What one thread opens: an object of each kind in its block, and one of each kind in the heap. */
typedef struct {
    pthread_t thread;
    unsigned long rounds;
    fak_c_seat inside[KINDS][SEATS];
    fak_c_seat outside[KINDS][SEATS];
    _Alignas(16) unsigned char block[65536];
} opener;

static opener openers[THREADS];

static bool lies_in_block(const opener *self, const fak_c_seat *seat) {
    const unsigned char *at = seat->at;
    return at >= self->block && at < self->block + sizeof self->block;
}

/* Opens an object of each kind, whose seats lie in the block or all elsewhere. */
static void open_each(const opener *self, fak_c_seat seats[KINDS][SEATS], bool in_block) {
    for (int kind = 0; kind < KINDS; kind++) {
        CHECK(opened(kind, seats[kind], SEATS, CELLS, 9) == FAK_C_OK);
        for (int i = 0; i < SEATS; i++)
            CHECK(lies_in_block(self, &seats[kind][i]) == in_block);
    }
}

static void leave_each(fak_c_seat seats[KINDS][SEATS]) {
    for (int kind = 0; kind < KINDS; kind++)
        for (int i = 0; i < SEATS; i++)
            CHECK(fak_c_leave(&seats[kind][i]) == FAK_C_OK);
}

/* Opens in the block, in the heap, and in a block that is too small, and leaves all. */
static void *open_and_leave(void *argument) {
    opener *self = argument;
    for (unsigned long round = 0; round < self->rounds; round++) {
        uint64_t ticket = 0, item = 0;
        fak_c_seat refused[SEATS] = {0};
        fak_c_block_begin(self->block, sizeof self->block);
        open_each(self, self->inside, true);
        CHECK(fak_c_block_end() <= sizeof self->block);
        open_each(self, self->outside, false);
        CHECK(fak_c_insert(self->inside[QUEUE], round, &ticket) == FAK_C_OK);
        CHECK(fak_c_delete(&self->inside[QUEUE][1], &ticket, &item) == FAK_C_OK && item == round);
        leave_each(self->outside);
        CHECK(!fak_c_block_is_free(self->block));
        leave_each(self->inside);
        CHECK(fak_c_block_is_free(self->block));
        fak_c_block_begin(self->block, 64);
        CHECK(opened(QUEUE, refused, SEATS, CELLS, 9) == FAK_C_MEMORY);
        fak_c_block_end();
        CHECK(fak_c_block_is_free(self->block));
    }
    return NULL;
}

static void *leave_all(void *argument) {
    opener *self = argument;
    leave_each(self->inside);
    leave_each(self->outside);
    return NULL;
}

/* Seats of a block, and of the heap, leave on another thread than the one that opened them. */
static void seats_leave_elsewhere(opener *self) {
    fak_c_block_begin(self->block, sizeof self->block);
    open_each(self, self->inside, true);
    fak_c_block_end();
    open_each(self, self->outside, false);
    CHECK(!fak_c_block_is_free(self->block));
    CHECK(pthread_create(&self->thread, NULL, leave_all, self) == 0 && pthread_join(self->thread, NULL) == 0);
    CHECK(fak_c_block_is_free(self->block));
}

int main(int count, char **words) {
    unsigned long rounds = count > 1 ? strtoul(words[1], NULL, 10) : 1000;
    for (int i = 0; i < THREADS; i++) {
        openers[i].rounds = rounds;
        CHECK(pthread_create(&openers[i].thread, NULL, open_and_leave, &openers[i]) == 0);
    }
    for (int i = 0; i < THREADS; i++)
        CHECK(pthread_join(openers[i].thread, NULL) == 0);
    seats_leave_elsewhere(&openers[0]);
    return 0;
}
