/* The heap that libfak_c.a calls, over the caller's blocks. The proofs assume of it what they assume of malloc: a part of n bytes that
 * nothing else uses, aligned to 16, until it is given back; or a refusal. */
#include "block.h"

#include <stdatomic.h>

#ifdef FAK_C_BLOCK_AND_HEAP
#include <stdlib.h>
#define OF_THREAD _Thread_local
#else
#define OF_THREAD
#endif

/* What the library's heap returns: whether there was memory, and where. The pointer of a refusal is not null. */
struct allocation {
    bool found;
    void *at;
};

/* The head of the caller's block. */
struct block {
    size_t bytes;
    size_t used;
    atomic_size_t out; /* how many parts are in use */
    size_t unused;
};

/* The head of each part. For a part of the heap it names no block. */
struct part {
    struct block *of;
    size_t unused;
};

_Static_assert(sizeof(struct block) % 16 == 0 && sizeof(struct part) % 16 == 0, "parts are aligned to 16");

static OF_THREAD struct block *open_block;

struct allocation rattle_alloc(size_t size, size_t align);
struct allocation rattle_realloc(void *part, size_t kept, size_t size, size_t align);
void rattle_dealloc(void *at);

void fak_c_block_begin(void *block, size_t bytes) {
    open_block = (struct block *)block;
    open_block->bytes = bytes;
    open_block->used = sizeof(struct block);
    atomic_init(&open_block->out, 0);
}

size_t fak_c_block_end(void) {
    size_t used = open_block != NULL ? open_block->used : 0;
    open_block = NULL;
    return used;
}

/* Sequentially consistent, as the subtraction below: what seats did before they left is there for a caller that reads 0. */
bool fak_c_block_is_free(const void *block) {
    return atomic_load(&((struct block *)(uintptr_t)block)->out) == 0;
}

#ifdef FAK_C_BLOCK_AND_HEAP

/* A part of the heap, or none if there is no memory. */
static struct part *part_of_heap(size_t bytes) {
    struct part *part = malloc(bytes);
    if (part != NULL)
        part->of = NULL;
    return part;
}

static void free_part(struct part *part) {
    free(part);
}

#else

static struct part *part_of_heap(size_t bytes) {
    (void)bytes;
    return NULL;
}

static void free_part(struct part *part) {
    (void)part;
}

#endif

/* A part of the open block, or none if it does not fit. */
static struct part *part_of_block(size_t bytes) {
    if (open_block->bytes - open_block->used < bytes)
        return NULL;
    struct part *part = (struct part *)((unsigned char *)open_block + open_block->used);
    part->of = open_block;
    open_block->used += bytes;
    /* It must come before the part is handed out: seats on other threads may give it back at once. */
    atomic_fetch_add(&open_block->out, 1);
    return part;
}

struct allocation rattle_alloc(size_t size, size_t align) {
    struct allocation refusal = {false, &open_block};
    size_t wanted = sizeof(struct part) + ((size + 15) & ~(size_t)15);
    if (align > 16 || wanted < size)
        return refusal;
    struct part *part = open_block != NULL ? part_of_block(wanted) : part_of_heap(wanted);
    return part != NULL ? (struct allocation){true, part + 1} : refusal;
}

/* No call of the library makes a part larger. */
struct allocation rattle_realloc(void *part, size_t kept, size_t size, size_t align) {
    (void)part, (void)kept, (void)size, (void)align;
    return (struct allocation){false, &open_block};
}

void rattle_dealloc(void *at) {
    struct part *part = (struct part *)at - 1;
    if (part->of == NULL)
        free_part(part);
    else
        atomic_fetch_sub(&part->of->out, 1); /* the last use of the part: at 0 the caller may use the block again */
}
