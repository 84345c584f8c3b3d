/* A heap whose allocations fail if a test says so. One file of a program includes this. The linker's --wrap sends malloc, calloc,
 * aligned_alloc and free here. */
#ifndef FAK_C_FAILING_HEAP_H
#define FAK_C_FAILING_HEAP_H

#include <stdbool.h>
#include <stddef.h>

/* The number of calls that may fail so far, the number of the one that does (0 for none), and the blocks that are not freed. */
static long made, failing, live;

/* The bytes of the last aligned block. */
static size_t aligned_bytes;

void *__real_malloc(size_t size);
void *__wrap_malloc(size_t size);
void *__real_calloc(size_t count, size_t size);
void *__wrap_calloc(size_t count, size_t size);
void *__real_aligned_alloc(size_t align, size_t size);
void *__wrap_aligned_alloc(size_t align, size_t size);
void __real_free(void *block);
void __wrap_free(void *block);

/* Whether this call succeeds. */
static bool is_made(void) {
    return __atomic_add_fetch(&made, 1, __ATOMIC_RELAXED) != failing;
}

static void *counted(void *block) {
    __atomic_fetch_add(&live, block != NULL, __ATOMIC_RELAXED);
    return block;
}

void *__wrap_malloc(size_t size) {
    return is_made() ? counted(__real_malloc(size)) : NULL;
}

void *__wrap_calloc(size_t count, size_t size) {
    return is_made() ? counted(__real_calloc(count, size)) : NULL;
}

void *__wrap_aligned_alloc(size_t align, size_t size) {
    __atomic_store_n(&aligned_bytes, size, __ATOMIC_RELAXED);
    return is_made() ? counted(__real_aligned_alloc(align, size)) : NULL;
}

void __wrap_free(void *block) {
    __atomic_fetch_sub(&live, block != NULL, __ATOMIC_RELAXED);
    __real_free(block);
}

#endif
