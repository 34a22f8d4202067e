/* QEMU's board virt: everything in memory from 80000000h on. */
ENTRY(start)
MEMORY { ram : ORIGIN = 0x80000000, LENGTH = 1M }
SECTIONS {
    .text : { KEEP(*(.vectors)) *(.text*) *(.rodata*) *(.srodata*) } > ram
    .data : { *(.data*) *(.sdata*) . = ALIGN(4); } > ram
    .bss : { bss_start = .; *(.bss*) *(.sbss*) *(COMMON) . = ALIGN(4); bss_end = .; } > ram
    . = ALIGN(16);
    . = . + 32K;
    stack_top = .;
}
