/* Start of the first processor (multiboot 1, 32 bits) and of the others (at 0x8000, 16 bits), both into long mode; the thread
 * switch; the interrupt entries. */
    .set CR0_ON, 0x80000011         /* paging, extension type, protected mode; no emulation: SSE works */
    .set CR4_ON, 0x620              /* physical address extension, SSE, SSE exceptions */
    .set STACK, 16384
    .set START, 0x8000              /* where the other processors start: page 8 */

    .section .boot, "ax"
    .align 4
    .long 0x1BADB002, 0, -0x1BADB002

    .code32
    .globl start
start:
    cli
    movl $CR4_ON, %eax
    movl %eax, %cr4
    movl $tables, %eax
    movl %eax, %cr3
    movl $0xC0000080, %ecx          /* EFER: long mode */
    rdmsr
    orl $0x100, %eax
    wrmsr
    movl $CR0_ON, %eax
    movl %eax, %cr0
    lgdt boot_gdtr
    ljmp $8, $long_start

/* Copied to START. Real mode goes to long mode in one step. */
    .code16
    .globl ap_code, ap_end
ap_code:
    cli
    xorw %ax, %ax
    movw %ax, %ds
    movl $CR4_ON, %eax
    movl %eax, %cr4
    movl $tables, %eax
    movl %eax, %cr3
    movl $0xC0000080, %ecx
    rdmsr
    orl $0x100, %eax
    wrmsr
    lgdtl START + ap_gdtr - ap_code
    movl $CR0_ON, %eax
    movl %eax, %cr0
    ljmpl $8, $long_start
ap_gdtr:
    .word 15
    .long boot_gdt
ap_end:

/* Each processor draws its number, takes the stack of that number and calls enter(number). The draw must be atomic and come before the
 * stack is used: all others start at once. */
    .code64
long_start:
    movl $1, %edi
    lock xaddl %edi, drawn
    xorl %eax, %eax
    movl %eax, %ds
    movl %eax, %es
    movl %eax, %ss
    leal 1(%rdi), %eax
    imull $STACK, %eax
    leaq stacks(%rax), %rsp
    xorl %ebp, %ebp
    call enter
    ud2

    .section .data
    .align 4096
tables:
    .quad directory + 3
    .fill 511, 8, 0
directory:
    .set i, 0
    .rept 4
    .quad pages_2m + 3 + i * 4096
    .set i, i + 1
    .endr
    .fill 508, 8, 0
pages_2m:                           /* the first 4 GB, each address itself */
    .set i, 0
    .rept 2048
    .quad (i << 21) | 0x83
    .set i, i + 1
    .endr
    .align 8
boot_gdt:
    .quad 0, 0x00AF9A000000FFFF
boot_gdtr:
    .word 15
    .long boot_gdt
drawn:
    .long 0

    .section .bss
    .align 16
stacks:
    .skip 8 * STACK                 /* PROCESSORS of machine.h */

    .section .text
/* void swap(void **save, void *load): keeps this flow's stack in *save, and goes on with the one that was kept as load. */
    .globl swap
swap:
    pushq %rbp
    pushq %rbx
    pushq %r12
    pushq %r13
    pushq %r14
    pushq %r15
    movq %rsp, (%rdi)
    movq %rsi, %rsp
    popq %r15
    popq %r14
    popq %r13
    popq %r12
    popq %rbx
    popq %rbp
    ret

/* Calls tick with the interrupted instruction. The library's first archive writes SSE registers, which C code need not keep, so the
 * handler saves them. With the second archive a kernel may leave that out (-DNO_FXSAVE). */
    .globl tick_entry
tick_entry:
    pushq %rax
    pushq %rcx
    pushq %rdx
    pushq %rsi
    pushq %rdi
    pushq %r8
    pushq %r9
    pushq %r10
    pushq %r11
    cld
    movq 72(%rsp), %rdi
    subq $512, %rsp
#ifndef NO_FXSAVE
    fxsave64 (%rsp)
#endif
    call tick
#ifndef NO_FXSAVE
    fxrstor64 (%rsp)
#endif
    addq $512, %rsp
    popq %r11
    popq %r10
    popq %r9
    popq %r8
    popq %rdi
    popq %rsi
    popq %rdx
    popq %rcx
    popq %rax
    iretq

/* bool hold_sse(uint64_t pattern, uint64_t turns): writes two registers. Returns whether they still hold the pattern after the turns. */
    .globl hold_sse
hold_sse:
    movq %rdi, %xmm0
    movq %rdi, %xmm15
1:  decq %rsi
    jnz 1b
    movq %xmm0, %rcx
    movq %xmm15, %rdx
    xorl %eax, %eax
    cmpq %rdi, %rcx
    jne 2f
    cmpq %rdi, %rdx
    jne 2f
    incl %eax
2:  ret

    .globl spurious_entry
spurious_entry:
    iretq

/* Each of the 32 exceptions ends the run: trap(number, stack). */
    .globl trap_entries
    .align 8
trap_entries:
    .set i, 0
    .rept 32
    .align 8
    pushq $i
    jmp trapped
    .set i, i + 1
    .endr
trapped:
    popq %rdi
    movq %rsp, %rsi
    andq $-16, %rsp
    call trap
    ud2

    .section .note.GNU-stack, "", @progbits
