# finds: wants malloc
    .text
    .globl fak_c_open
fak_c_open:
    call malloc
    ret
