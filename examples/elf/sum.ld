/* Code at the beginning of RAM, and data at the next page: two segments. */
OUTPUT_ARCH(riscv)
ENTRY(_start)

PHDRS
{
    code PT_LOAD FLAGS(5);
    data PT_LOAD FLAGS(6);
}

SECTIONS
{
    . = 0x80000000;
    .text : { *(.text.start) *(.text .text.*) *(.rodata .rodata.*) } :code
    . = ALIGN(0x1000);
    .data : { *(.data .data.* .sdata .sdata.*) } :data
    .bss : { *(.bss .bss.* .sbss .sbss.* COMMON) . = ALIGN(16); . += 0x400; stack_top = .; } :data
    /DISCARD/ : { *(.comment) *(.riscv.attributes) *(.note.*) *(.eh_frame) }
}
