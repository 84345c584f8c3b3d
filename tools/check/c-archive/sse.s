# finds: writes SSE registers: fak_c_try_fill
    .text
    .globl fak_c_try_fill
fak_c_try_fill:
    xorps %xmm0, %xmm0
    ret
