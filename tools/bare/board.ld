/* Code and constants from `code` on, all else from `memory` to `memory_end`, where the stack starts. The emulator loads both, so nothing is copied at the start. */
ENTRY(start)
SECTIONS {
    . = code;
    .text : { KEEP(*(.vectors)) *(.text*) *(.rodata*) }
    .ARM.exidx : { *(.ARM.exidx*) }
    . = memory;
    .data : { *(.data*) *(.sdata*) }
    .bss : { *(.sbss*) *(.bss*) *(COMMON) . = ALIGN(16); }
    memory_free = .;
    stack_top = memory_end;
}
