/* Where a program's parts lie: instructions and constants from address 0 on, which can't be written; then C's stack;
   then data. What runs over the stack meets instructions, and faults. After data the kernel puts a guard page, the
   one page of a stack that it knows of, and the heap, which sbrk gives. */
ENTRY(start)

__stack_size = DEFINED(__stack_size) ? __stack_size : 65536;

PHDRS
{
    text PT_LOAD FLAGS(5);
    stack PT_LOAD FLAGS(6);
    data PT_LOAD FLAGS(6);
}

SECTIONS
{
    . = 0;
    .text : {
        *(.text.start) *(.text .text.*) *(.rodata .rodata.* .srodata .srodata.*)
        . = ALIGN(8);
        PROVIDE_HIDDEN(__preinit_array_start = .);
        KEEP(*(.preinit_array))
        PROVIDE_HIDDEN(__preinit_array_end = .);
        PROVIDE_HIDDEN(__init_array_start = .);
        KEEP(*(SORT_BY_INIT_PRIORITY(.init_array.*))) KEEP(*(.init_array))
        PROVIDE_HIDDEN(__init_array_end = .);
        PROVIDE_HIDDEN(__fini_array_start = .);
        KEEP(*(SORT_BY_INIT_PRIORITY(.fini_array.*))) KEEP(*(.fini_array))
        PROVIDE_HIDDEN(__fini_array_end = .);
    } :text
    . = ALIGN(4096);
    .stack (NOLOAD) : { . += __stack_size; . = ALIGN(4096); __stack_top = .; } :stack
    /* The variables of the one thread stand here, where tp points: those that begin as 0 are bytes of the file, too. */
    .tdata : { PROVIDE(__thread_start = .); *(.tdata .tdata.*) *(.tbss .tbss.*) } :data
    .data : { *(.data .data.* .sdata .sdata.*) } :data
    .bss : { *(.sbss .sbss.* .bss .bss.* COMMON) } :data
    /DISCARD/ : { *(.comment) *(.note .note.*) *(.eh_frame) *(.riscv.attributes) }
}
