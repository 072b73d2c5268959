/* The memory of a Cortex-M3 board that qemu has (mps2-an385). */
ENTRY(_start)
MEMORY { flash (rx) : ORIGIN = 0, LENGTH = 4M  ram (rwx) : ORIGIN = 0x20000000, LENGTH = 4M }
SECTIONS {
    .text : {
        KEEP(*(.vectors)) KEEP(*(.init)) *(.text*) KEEP(*(.fini)) *(.rodata*)
        . = ALIGN(8);
        __preinit_array_start = .; KEEP(*(.preinit_array)) __preinit_array_end = .;
        __init_array_start = .; KEEP(*(SORT(.init_array.*))) KEEP(*(.init_array)) __init_array_end = .;
        __fini_array_start = .; KEEP(*(.fini_array*)) __fini_array_end = .;
        *(.eh_frame*)
    } > flash
    .ARM.exidx : { __exidx_start = .; *(.ARM.exidx*) __exidx_end = .; } > flash
    .data : { *(.data*) . = ALIGN(8); } > ram
    .bss (NOLOAD) : { __bss_start__ = .; *(.bss*) *(COMMON) . = ALIGN(8); __bss_end__ = .; } > ram
    end = .; PROVIDE(_end = .); PROVIDE(__end__ = .);
    __stack = 0x20400000;
}
