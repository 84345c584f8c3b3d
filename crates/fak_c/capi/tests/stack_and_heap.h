/* For tests of how much stack and heap calls take: a painted stack, and a heap that counts. */
#ifndef FAK_C_STACK_AND_HEAP_H
#define FAK_C_STACK_AND_HEAP_H

#include <stddef.h>

/* The bytes of the heap that are in use, without the heads of the parts. */
extern size_t heap_in_use;

/* The bytes that all allocations since a test cleared this would take of a block (block.h), with the heads of the parts. */
extern size_t heap_taken;

/* The bytes of an allocated part. */
size_t size_of(const void *part);

/* How many bytes of its stack the job writes, beyond those that an empty job writes. */
size_t depth_of(void (*job)(void));

#endif
