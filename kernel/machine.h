/* What the kernel asks of a PC: the processors, their timers and the serial port. */
#ifndef MACHINE_H
#define MACHINE_H

#include <stdatomic.h>
#include <stdbool.h>
#include <stddef.h>
#include <stdint.h>

enum { PROCESSORS = 8 }; /* boot.S has as many stacks */

/* Turns interrupts off, and back to what they were. */
static inline uint64_t irq_save(void) {
    uint64_t flags;
    __asm__ volatile("pushfq; popq %0; cli" : "=r"(flags)::"memory");
    return flags;
}
static inline void irq_restore(uint64_t flags) {
    if (flags & 0x200)
        __asm__ volatile("sti" ::: "memory");
}

static inline void pause(void) { __asm__ volatile("pause"); }
static inline void interrupts_on(void) { __asm__ volatile("sti" ::: "memory"); }
static inline void interrupts_off(void) { __asm__ volatile("cli" ::: "memory"); }
static inline void halt(void) { __asm__ volatile("hlt" ::: "memory"); }
/* Turns interrupts on and halts, with no interrupt between the two. */
static inline void halt_until_interrupt(void) { __asm__ volatile("sti; hlt" ::: "memory"); }

/* Which processor this is. It may be another one after a switch of threads. */
static inline uint32_t processor(void) {
    uint32_t number;
    __asm__ volatile("movl %%gs:0, %0" : "=r"(number));
    return number;
}

uint32_t processors(void);    /* how many the machine has */
uint64_t memory_bytes(void);  /* how much memory it has */
void start_others(void);      /* each calls enter */
void set_up(uint32_t number); /* descriptors, interrupt table and local APIC of this processor */
void timer_on(uint32_t nanoseconds);
void timer_off(void);
void end_of_interrupt(void);

void say(const char *format, ...);   /* %s, %u (uint64_t) and %x (uint64_t) */
_Noreturn void exit_qemu(bool good); /* with status 33 if good, else 35 */
_Noreturn void fail(const char *what, uint64_t number);

/* What compilers and the library call: memory.c. */
void *memcpy(void *to, const void *from, size_t size);
void *memmove(void *to, const void *from, size_t size);
void *memset(void *to, int byte, size_t size);

/* boot.S: keeps this flow's stack in *save, and goes on with the one that was kept as load. */
void swap(void **save, void *load);
/* boot.S: writes the pattern to two SSE registers. Returns whether they still hold it after this many turns. */
bool hold_sse(uint64_t pattern, uint64_t turns);

/* The kernel's, called by boot.S: a processor begins, its timer ticks at this instruction, it takes an exception. */
_Noreturn void enter(uint32_t number);
void tick(uint64_t instruction);
void trap(uint64_t vector, const uint64_t *stack);

#endif
