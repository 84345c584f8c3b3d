# finds: writes below the stack
    .text
    .globl fak_c_state
fak_c_state:
    leaq .Ltable(%rip), %rax
    movq %rax, -8(%rsp)
    jmp *%rax
.Ltable:
    .byte 0xff, 0xa4, 0xfc, 0xff, 0xff, 0xcc, 0xcc
