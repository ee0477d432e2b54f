/* A 32-bit RISC-V whose code and data stand in RAM (QEMU's virt). */
ENTRY(start)
MEMORY {
    ram (rwx) : ORIGIN = 0x80000000, LENGTH = 1M
}
SECTIONS {
    .text : { KEEP(*(.vectors)) *(.text*) *(.rodata*) *(.srodata*) } > ram
    .data : { data_start = .; *(.data*) *(.sdata*) . = ALIGN(4); data_end = .; } > ram
    data_source = LOADADDR(.data);
    .bss (NOLOAD) : { bss_start = .; *(.sbss*) *(.bss*) *(COMMON) . = ALIGN(16); bss_end = .; } > ram
    stack_top = ORIGIN(ram) + LENGTH(ram);
}
