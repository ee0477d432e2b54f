/* Code and constants in flash, variables and the stack in RAM. Change the two lines of MEMORY to what your processor has. */
ENTRY(start)
MEMORY {
    FLASH (rx) : ORIGIN = 0x00000000, LENGTH = 64K
    RAM (rw) : ORIGIN = 0x20000000, LENGTH = 8K
}
SECTIONS {
    .text : { KEEP(*(.vectors)) *(.text*) *(.rodata*) . = ALIGN(4); } > FLASH
    .ARM.exidx : { *(.ARM.exidx*) } > FLASH
    .data : { data_start = .; *(.data*) . = ALIGN(4); data_end = .; } > RAM AT > FLASH
    .bss (NOLOAD) : { bss_start = .; *(.bss*) *(COMMON) . = ALIGN(4); bss_end = .; } > RAM
    data_in_flash = LOADADDR(.data);
    stack_top = ORIGIN(RAM) + LENGTH(RAM);
}
