/* Code alone, as an image has it: what needs data of its own doesn't link. */
SECTIONS
{
    . = 0x100000000;
    .text : { *(.text.start) *(.text .text.*) }
    .data : { *(.data .data.* .sdata .sdata.* .bss .bss.* .sbss .sbss.* COMMON .rodata .rodata.* .srodata .srodata.*) }
    /DISCARD/ : { *(.comment) *(.note .note.*) *(.eh_frame) *(.riscv.attributes) }
    ASSERT(SIZEOF(.data) == 0, "a driver has no data of its own")
}
