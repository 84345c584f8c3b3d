/* A PC as QEMU has it: the serial port, the local APICs with their timers, descriptors, and the exit. */
#include "machine.h"

#include <stdarg.h>

enum { CODE = 8, TASK = 16, TICK = 32, SPURIOUS = 255 };

static inline void out8(uint16_t port, uint8_t byte) { __asm__ volatile("outb %0, %1" ::"a"(byte), "Nd"(port)); }
static inline void out16(uint16_t port, uint16_t word) { __asm__ volatile("outw %0, %1" ::"a"(word), "Nd"(port)); }
static inline uint8_t in8(uint16_t port) {
    uint8_t byte;
    __asm__ volatile("inb %1, %0" : "=a"(byte) : "Nd"(port));
    return byte;
}

/* The serial port. */
static void put_char(char c) {
    while (!(in8(0x3FD) & 0x20))
        pause();
    out8(0x3F8, (uint8_t)c);
}

static void put_number(uint64_t n, unsigned base) {
    char digits[24];
    int i = 0;
    do
        digits[i++] = "0123456789abcdef"[n % base];
    while ((n /= base) != 0);
    while (i > 0)
        put_char(digits[--i]);
}

void say(const char *format, ...) {
    va_list list;
    va_start(list, format);
    for (; *format != 0; format++) {
        if (*format != '%') {
            put_char(*format);
            continue;
        }
        format++;
        if (*format == 's')
            for (const char *s = va_arg(list, const char *); *s != 0; s++)
                put_char(*s);
        else
            put_number(va_arg(list, uint64_t), *format == 'x' ? 16 : 10);
    }
    va_end(list);
}

/* QEMU's isa-debug-exit ends with status 2n + 1. */
void exit_qemu(bool good) {
    out8(0xF4, good ? 16 : 17);
    for (;;)
        halt();
}

/* Only the first processor that fails prints. */
void fail(const char *what, uint64_t number) {
    static atomic_flag once = ATOMIC_FLAG_INIT;
    interrupts_off();
    /* It must come before the text, and nobody clears it: others that fail stay here. */
    while (atomic_flag_test_and_set(&once))
        pause();
    say("\nFAILED on processor %u: %s %u\n", (uint64_t)processor(), what, number);
    exit_qemu(false);
}

void trap(uint64_t vector, const uint64_t *stack) {
    say("\ntrap at %x, %x, %x", stack[0], stack[1], stack[2]); /* an error code, if there is one, comes first */
    fail("trap", vector);
}

/* The local APIC. */
static volatile uint32_t *const apic = (volatile uint32_t *)0xFEE00000;
enum { APIC_EOI = 0xB0 / 4, APIC_SPURIOUS = 0xF0 / 4, APIC_COMMAND = 0x300 / 4, APIC_TIMER = 0x320 / 4,
       APIC_COUNT = 0x380 / 4, APIC_DIVIDE = 0x3E0 / 4 };

void end_of_interrupt(void) { apic[APIC_EOI] = 0; }
void timer_off(void) { apic[APIC_TIMER] = 1 << 16; }
/* If it divides by 1, QEMU's counts nanoseconds. Another machine's would have to be measured. */
void timer_on(uint32_t nanoseconds) {
    apic[APIC_DIVIDE] = 0xB;
    apic[APIC_TIMER] = 1 << 17 | TICK;
    apic[APIC_COUNT] = nanoseconds;
}

/* Descriptors. Each processor has a task segment, for the stack of its interrupts (IST 1). */
struct task {
    uint32_t unused;
    uint64_t stack[3], unused1, ist[7], unused2;
    uint32_t ports;
} __attribute__((packed));

struct table {
    uint16_t limit;
    uint64_t at;
} __attribute__((packed));

static struct {
    uint32_t number;
    struct task task;
    uint64_t gdt[4];
    unsigned char ist[8192] __attribute__((aligned(16)));
} per_processor[PROCESSORS];

static uint64_t idt[256][2];
extern const unsigned char trap_entries[], tick_entry[], spurious_entry[];

static void set_gate(unsigned vector, const unsigned char *entry, uint64_t ist) {
    uint64_t at = (uint64_t)entry;
    idt[vector][0] = (at & 0xFFFF) | CODE << 16 | ist << 32 | 0x8EULL << 40 | (at >> 16 & 0xFFFF) << 48;
    idt[vector][1] = at >> 32;
}

void set_up(uint32_t n) {
    uint64_t task = (uint64_t)&per_processor[n].task;
    per_processor[n].number = n;
    per_processor[n].task.ist[0] = (uint64_t)(per_processor[n].ist + sizeof per_processor[n].ist);
    per_processor[n].gdt[1] = 0x00AF9A000000FFFF;
    per_processor[n].gdt[2] = (sizeof(struct task) - 1) | (task & 0xFFFFFF) << 16 | 0x89ULL << 40 | (task >> 24 & 0xFF) << 56;
    per_processor[n].gdt[3] = task >> 32;
    if (n == 0) {
        for (unsigned i = 0; i < 32; i++)
            set_gate(i, trap_entries + 8 * i, 1);
#ifdef NO_IST
        set_gate(TICK, tick_entry, 0);
#else
        set_gate(TICK, tick_entry, 1);
#endif
        set_gate(SPURIOUS, spurious_entry, 1);
        out8(0x21, 0xFF); /* the old interrupt controllers stay silent */
        out8(0xA1, 0xFF);
    }
    __asm__ volatile("lgdt %0" ::"m"((struct table){sizeof per_processor[n].gdt - 1, (uint64_t)per_processor[n].gdt}));
    __asm__ volatile("lidt %0" ::"m"((struct table){sizeof idt - 1, (uint64_t)idt}));
    __asm__ volatile("ltr %w0" ::"r"(TASK));
    uint64_t gs = (uint64_t)&per_processor[n].number;
    __asm__ volatile("wrmsr" ::"c"(0xC0000101), "a"((uint32_t)gs), "d"((uint32_t)(gs >> 32)));
    apic[APIC_SPURIOUS] = 0x100 | SPURIOUS;
}

/* Reads a number of QEMU's fw_cfg by its key, byte by byte. */
static uint64_t read_config(uint16_t key, unsigned bytes) {
    uint64_t n = 0;
    out16(0x510, key);
    for (unsigned i = 0; i < bytes; i++)
        n |= (uint64_t)in8(0x511) << 8 * i;
    return n;
}

uint32_t processors(void) { return (uint32_t)read_config(5, 2); }
uint64_t memory_bytes(void) { return read_config(3, 8); }

static void wait_microseconds(unsigned n) {
    while (n-- > 0)
        out8(0x80, 0);
}

extern const unsigned char ap_code[], ap_end[];

void start_others(void) {
    memcpy((void *)0x8000, ap_code, (size_t)(ap_end - ap_code));
    apic[APIC_COMMAND] = 0xC4500; /* INIT to all others */
    wait_microseconds(10000);
    for (int i = 0; i < 2; i++) { /* start at page 8, twice */
        apic[APIC_COMMAND] = 0xC4608;
        wait_microseconds(200);
    }
}
