/* Where a program's parts lie: instructions and constants from address 0 on, which can't be written, and from the
   next page on what can. After them the kernel puts a guard page, the stack's page, and what sbrk gives. */
ENTRY(start)

SECTIONS
{
    . = 0;
    .text : { *(.text.start) *(.text .text.*) *(.rodata .rodata.* .srodata .srodata.*) }
    . = ALIGN(4096);
    .data : { *(.data .data.* .sdata .sdata.*) }
    .bss : { *(.sbss .sbss.* .bss .bss.* COMMON) }
    PROVIDE(end = .);
    /DISCARD/ : { *(.comment) *(.note .note.*) *(.eh_frame) *(.riscv.attributes) }
}
