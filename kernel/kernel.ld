/* One image from 1 MB on. The library's code is in one piece, so that the timer knows whether it interrupted that code. */
ENTRY(start)
SECTIONS
{
    . = 1M;
    .boot : { *(.boot) }
    .text : {
        library_start = .;
        *libfak_c.a:*(.text .text.*)
        library_end = .;
        *(.text .text.*)
    }
    .rodata : { *(.rodata .rodata.*) }
    .data : { *(.data .data.*) }
    .bss : { *(.bss .bss.*) *(COMMON) }
    image_end = .;
    /DISCARD/ : { *(.comment) *(.note*) *(.eh_frame*) *(.debug_frame*) *(.llvm_addrsig) }
}
