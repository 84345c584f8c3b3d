/* Memory of the caller for objects: link block.c in place of libfak_c_heap.a, the heap over malloc. It is C, and tested, not proved.
 *
 * Between fak_c_block_begin and fak_c_block_end all that the opening calls allocate lies in the caller's block. A block may have several
 * objects. The block belongs to the caller again when fak_c_block_is_free: when the last seat of each of its objects has left. Seats may
 * leave on any thread.
 *
 * By default block.c needs no heap: what is opened without a block is refused as FAK_C_MEMORY, and one thread opens at a time. Kernels
 * compile it so. Compiled with FAK_C_BLOCK_AND_HEAP it uses malloc as well: each thread has an open block of its own, so threads may open
 * at once, and what a thread opens without a block lies in the heap. */
#ifndef FAK_C_BLOCK_H
#define FAK_C_BLOCK_H

#include <stdbool.h>
#include <stddef.h>
#include <stdint.h>

#ifdef __cplusplus
extern "C" {
#endif

/* How many bytes a block needs for one object with n seats: a queue, or a semaphore, with `size` cells; a queue that has m bundles
 * of `width` seats each besides; a room or a credit; a file table. Align the block to 16. The test of block.c opens each at these sizes. */
#define FAK_C_QUEUE_BYTES(n, size) (1920 + 432 * (size_t)(n) + 48 * (size_t)(size))
#define FAK_C_BUNDLES_BYTES(n, m, width, size) \
    (1792 + 496 * (size_t)(n) + 832 * (size_t)(m) + 208 * (size_t)(m) * (size_t)(width) + 48 * (size_t)(size))
#define FAK_C_SEM_BYTES(n, size) (2368 + 608 * (size_t)(n) + 48 * (size_t)(size))
#define FAK_C_COUNT_BYTES(n) (512 + 360 * (size_t)(n))
#define FAK_C_FILES_BYTES(n) (1088 + 360 * (size_t)(n))

/* What is opened from now on lies in this block, of at least 64 bytes. */
void fak_c_block_begin(void *block, size_t bytes);

/* Returns how many bytes of the block are used. Nothing more is opened in it, until it begins anew. */
size_t fak_c_block_end(void);

/* Whether nothing in the block is in use. */
bool fak_c_block_is_free(const void *block);

#ifdef __cplusplus
}
#endif

#endif
