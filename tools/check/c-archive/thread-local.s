# finds: uses thread-local storage
    .text
    .globl fak_c_state
fak_c_state:
    movq %fs:0, %rax
    ret
