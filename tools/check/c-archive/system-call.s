# finds: enters the system: called at
    .text
    .globl fak_c_state
fak_c_state:
    call enter
    ret
enter:
    movl $39, %eax
    syscall
    ret
