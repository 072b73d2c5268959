/* The board mps2-an385 of qemu, with no more memory than a small chip has: the linker refuses a larger program. */
ENTRY(start)
MEMORY { flash (rx) : ORIGIN = 0, LENGTH = 20K  ram (rw) : ORIGIN = 0x20000000, LENGTH = 2K }
SECTIONS {
    .text : { KEEP(*(.vectors)) *(.text*) *(.rodata*) } > flash
    .ARM.exidx : { *(.ARM.exidx*) } > flash
    .data : { *(.data*) } > ram
    .bss (NOLOAD) : { *(.bss*) *(COMMON) . = ALIGN(8); stack_end = .; } > ram
    stack_start = ORIGIN(ram) + LENGTH(ram);
    ASSERT(SIZEOF(.data) == 0 && stack_end == ORIGIN(ram), "nothing lies in memory but the stack")
}
