SECTIONS
{
    .text : { KEEP(*(.vectors)) *(.text .text.*) *(.rodata .rodata.* .srodata .srodata.*) . = ALIGN(4); } >flash
    .ARM.exidx : { *(.ARM.exidx .ARM.exidx.*) } >flash
    .data : { . = ALIGN(4); data_begin = .; *(.data .data.*) __global_pointer$ = . + 0x800; *(.sdata .sdata.*)
        . = ALIGN(4); data_end = .; } >ram AT>flash
    data_from = LOADADDR(.data);
    .bss (NOLOAD) : { . = ALIGN(4); bss_begin = .; *(.sbss .sbss.* .bss .bss.* COMMON) . = ALIGN(8); bss_end = .; } >ram
    stack_lowest = bss_end;
    stack_top = ORIGIN(ram) + LENGTH(ram);
    ASSERT(stack_top - stack_lowest >= 5120, "too little memory is left for the stack")
}
