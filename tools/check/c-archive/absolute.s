# finds: is not position independent
    .text
    .globl fak_c_state
fak_c_state:
    movq $fak_c_state, %rax
    ret
