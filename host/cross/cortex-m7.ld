/* The board that QEMU calls mps2-an500, a Cortex-M7: 4 MB of memory for code at 0, 4 MB for data. The C library is newlib with semihosting (rdimon). */
MEMORY
{
    CODE : ORIGIN = 0, LENGTH = 4M
    DATA : ORIGIN = 0x20000000, LENGTH = 4M
}
ENTRY(reset)
SECTIONS
{
    .text :
    {
        KEEP(*(.vectors))
        *(.text*) *(.rodata*)
        KEEP(*(.init)) KEEP(*(.fini))
        . = ALIGN(8);
        __preinit_array_start = .; KEEP(*(.preinit_array*)) __preinit_array_end = .;
        __init_array_start = .; KEEP(*(.init_array*)) __init_array_end = .;
        __fini_array_start = .; KEEP(*(.fini_array*)) __fini_array_end = .;
    } > CODE
    .ARM.exidx : { *(.ARM.exidx* .ARM.extab*) } > CODE
    /* QEMU loads the data in place */
    .data : { *(.data*) } > DATA
    .bss : { __bss_start__ = .; *(.bss*) *(COMMON) __bss_end__ = .; . = ALIGN(8); end = .; __end__ = .; } > DATA
    __stack = ORIGIN(DATA) + LENGTH(DATA);
}
