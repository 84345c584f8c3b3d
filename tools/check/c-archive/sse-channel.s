# finds: writes SSE registers: fak_channel_step
    .text
    .globl fak_channel_step
fak_channel_step:
    xorps %xmm0, %xmm0
    ret
