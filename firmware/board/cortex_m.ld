/* A Cortex-M with flash at 0 and memory at 20000000h, as QEMU's mps2-an385 and microbit have them. The command line gives the sizes:
 * -Wl,--defsym=ROM=256K,--defsym=RAM=16K. STACK bytes are left free above the variables; there is no guard below them. */
ENTRY(reset)
MEMORY {
    rom : ORIGIN = 0, LENGTH = ROM
    ram : ORIGIN = 0x20000000, LENGTH = RAM
}
STACK = 6K;
SECTIONS {
    .text : {
        KEEP(*(.vectors))
        *(.text*)
        KEEP(*(.init))
        KEEP(*(.fini))
        *(.rodata*)
        . = ALIGN(4);
        __init_array_start = .; KEEP(*(.init_array*)) __init_array_end = .;
        __fini_array_start = .; KEEP(*(.fini_array*)) __fini_array_end = .;
        __preinit_array_start = .; __preinit_array_end = .;
    } > rom
    .ARM.extab : { *(.ARM.extab*) } > rom
    .ARM.exidx : { __exidx_start = .; *(.ARM.exidx*) __exidx_end = .; } > rom
    .data : { data_start = .; *(.data*) . = ALIGN(4); data_end = .; } > ram AT> rom
    data_from = LOADADDR(.data);
    .bss : { bss_start = .; __bss_start__ = .; *(.bss*) *(COMMON) . = ALIGN(8); __bss_end__ = .; bss_end = .; } > ram
    end = .;
    _end = .;
    __end__ = .;
    stack_top = ORIGIN(ram) + LENGTH(ram);
    __stack = stack_top;
    ASSERT(end + STACK <= stack_top, "too little memory is left for the stack")
}
