/* Objects of each kind, for the tests that open all of them in memory of the caller. */
#ifndef FAK_C_OBJECTS_H
#define FAK_C_OBJECTS_H

#include "block.h"
#include "check.h"
#include "fak_channel.h"

enum { QUEUE, SEMAPHORE, ROOM, CREDIT, FILES, CHANNEL, KINDS };

/* The bytes that block.h, or fak_channel.h, says for an object of n seats. The size is the cells of a queue or a channel, or of a
 * semaphore's wait queue. */
static inline size_t bytes_of(int kind, size_t n, uint64_t size) {
    switch (kind) {
    case QUEUE:
        return FAK_C_QUEUE_BYTES(n, size);
    case SEMAPHORE:
        return FAK_C_SEM_BYTES(n, size);
    case FILES:
        return FAK_C_FILES_BYTES(n);
    case CHANNEL:
        return FAK_CHANNEL_BYTES(n, size);
    default:
        return FAK_C_COUNT_BYTES(n);
    }
}

/* Opens an object with these n seats. A room is opened with the size as its bound, a credit as its count, and a file table has 16
 * entries. */
static inline int32_t opened(int kind, fak_c_seat *seats, size_t n, uint64_t size, uint64_t stint) {
    switch (kind) {
    case QUEUE:
        return fak_c_open(seats, n, size, stint);
    case SEMAPHORE:
        return fak_c_sem_open(seats, n, 0, size, stint);
    case ROOM:
        return fak_c_room_open(seats, n, size, stint);
    case CREDIT:
        return fak_c_credit_open(seats, n, size, stint);
    case CHANNEL:
        return fak_channel_open(seats, n, size, stint);
    default:
        return fak_c_files_open(seats, n, 16, stint);
    }
}

/* Opens one in a block of this number of bytes; `used` is how many of them. */
static inline int32_t opened_in(
    void *block, size_t bytes, int kind, fak_c_seat *seats, size_t n, uint64_t size, uint64_t stint, size_t *used) {
    int32_t code;
    fak_c_block_begin(block, bytes);
    code = opened(kind, seats, n, size, stint);
    *used = fak_c_block_end();
    CHECK(*used <= bytes);
    return code;
}

/* The seats leave one by one, and the block is in use until then. */
static inline void each_leaves(const void *block, fak_c_seat *seats, size_t n) {
    for (size_t i = 0; i < n; i++) {
        CHECK(!fak_c_block_is_free(block));
        CHECK(fak_c_leave(&seats[i]) == FAK_C_OK);
    }
}

/* The same of all seats of an object: the block is free once the last has left. */
static inline void all_leave(const void *block, fak_c_seat *seats, size_t n) {
    each_leaves(block, seats, n);
    CHECK(fak_c_block_is_free(block));
}

#endif
