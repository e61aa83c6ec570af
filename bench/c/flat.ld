/* A program as bytes, of which the first is the first instruction, and what can be written is in them too. What is zero at the start
   follows them, and isn't. Data lie at 2048 or above, since the linker makes each address below that a number, and the same bytes are
   to run at any page; and what can be written lies in pages without code. */
ENTRY(start)

SECTIONS
{
    . = 0;
    .text : { *(.text .text.*) }
    . = MAX(., 2048);
    .rodata : { *(.rodata .rodata.* .srodata .srodata.*) }
    . = ALIGN(4096);
    .data : { *(.data .data.* .sdata .sdata.*) }
    .bss : { *(.sbss .sbss.* .bss .bss.* COMMON) }
    /DISCARD/ : { *(.comment) *(.note .note.*) *(.eh_frame) *(.riscv.attributes) }
}
