# finds: nothing
    .text
    .globl fak_c_state
fak_c_state:
    leaq -0xc00(%rsp), %r11
    subq $0xc00, %rsp
    movq $0x0, (%rsp)
    cmpq %r11, %rsp
    addq $0xc00, %rsp
    leaq fak_c_state(%rip), %rax
    ret
