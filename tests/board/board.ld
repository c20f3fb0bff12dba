/* FLASH and RAM are given by bin/targets. The stack has the top of the RAM; what is left between is area_low to area_top. */
ENTRY(start)
MEMORY { flash (rx) : ORIGIN = 0, LENGTH = FLASH  ram (rw) : ORIGIN = 0x20000000, LENGTH = RAM }
SECTIONS {
    .text : { KEEP(*(.vectors)) *(.text*) *(.rodata*) . = ALIGN(8); } >flash
    .data : { data_low = .; *(.data*) . = ALIGN(8); data_top = .; } >ram AT>flash
    data_from = LOADADDR(.data);
    .bss : { bss_low = .; *(.bss*) *(COMMON) . = ALIGN(64); bss_top = .; } >ram
    /DISCARD/ : { *(.ARM.exidx*) }
    stack_top = ORIGIN(ram) + LENGTH(ram);
    stack_low = stack_top - 65536;
    area_low = bss_top;
    area_top = stack_low;
}
