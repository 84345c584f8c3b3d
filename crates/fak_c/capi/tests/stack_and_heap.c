/* A stack that is painted before each job, and a heap that counts as block.c does: 16 bytes in front of each part. */
#include "stack_and_heap.h"
#include "check.h"
#include "heap.h"

#include <string.h>
#include <ucontext.h>

enum { STACK = 65536, PAINT = 0xA5, HEAD = 16, DEEP = 1000 };

/* ---- The heap ---- */

size_t heap_in_use, heap_taken;

struct allocation rattle_alloc(size_t size, size_t align) {
    size_t *part = malloc(size + HEAD);
    CHECK(part != NULL && align <= HEAD);
    part[0] = size;
    heap_in_use += size;
    heap_taken += HEAD + ((size + 15) & ~(size_t)15);
    return (struct allocation){true, (unsigned char *)part + HEAD};
}

struct allocation rattle_realloc(void *part, size_t kept, size_t size, size_t align) {
    (void)part, (void)kept, (void)size, (void)align;
    return (struct allocation){false, &heap_in_use};
}

size_t size_of(const void *part) {
    return *(const size_t *)(const void *)((const unsigned char *)part - HEAD);
}

void rattle_dealloc(void *part) {
    heap_in_use -= size_of(part);
    free((unsigned char *)part - HEAD);
}

/* ---- The stack ---- */

static unsigned char stack[STACK];
static ucontext_t here, there;
static void (*runs)(void);

static void run(void) { runs(); }

/* How many bytes of the painted stack are written. */
static size_t written_by(void (*job)(void)) {
    size_t unused = 0;
    memset(stack, PAINT, STACK);
    runs = job;
    CHECK(getcontext(&there) == 0);
    there.uc_stack.ss_sp = stack;
    there.uc_stack.ss_size = STACK;
    there.uc_link = &here;
    makecontext(&there, run, 0);
    CHECK(swapcontext(&here, &there) == 0);
    while (unused < STACK && stack[unused] == PAINT)
        unused++;
    return STACK - unused;
}

static void nothing(void) {}

/* Writes this much of its stack. */
static void deep(void) {
    volatile unsigned char written[DEEP];
    for (size_t i = 0; i < DEEP; i++)
        written[i] = 0;
    CHECK(written[DEEP - 1] == 0);
}

size_t depth_of(void (*job)(void)) {
    size_t base = written_by(nothing);
    CHECK(written_by(deep) - base >= DEEP);
    return written_by(job) - base;
}
