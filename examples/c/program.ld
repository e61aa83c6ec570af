/* Where a program's parts lie: instructions and constants from address 0 on, which can't be written, and from the next page
   on what can. Behind them the kernel puts a guard page and the stack's page. */
ENTRY(start)

SECTIONS
{
    . = 0;
    .text : { *(.text .text.*) *(.rodata .rodata.* .srodata .srodata.*) }
    . = ALIGN(4096);
    .data : { *(.data .data.* .sdata .sdata.*) }
    .bss : { *(.sbss .sbss.* .bss .bss.* COMMON) }
    /DISCARD/ : { *(.comment) *(.note .note.*) *(.eh_frame) *(.riscv.attributes) }
}
