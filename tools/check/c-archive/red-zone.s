# finds: writes below the stack
    .text
    .globl fak_c_state
fak_c_state:
    movq %rdi, -0x8(%rsp)
    ret
