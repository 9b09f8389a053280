/* Where things stand on a key of 256 KB of flash and 16 KB of memory, unless the command line names other memory (--defsym). */
RAM_START = DEFINED(RAM_START) ? RAM_START : 0x20000000;
RAM_LENGTH = DEFINED(RAM_LENGTH) ? RAM_LENGTH : 16K;

MEMORY {
    FLASH (rx) : ORIGIN = 0, LENGTH = 256K
    RAM (rwx) : ORIGIN = RAM_START, LENGTH = RAM_LENGTH
}

ENTRY(vectors)

SECTIONS {
    .text : { KEEP(*(.vectors)) *(.text*) *(.rodata*) . = ALIGN(4); } > FLASH
    .ARM.exidx : { *(.ARM.exidx*) } > FLASH
    data_in_flash = LOADADDR(.data);
    .data : { data_start = .; *(.data*) . = ALIGN(4); data_end = .; } > RAM AT > FLASH
    .bss : { bss_start = .; *(.bss*) *(COMMON) . = ALIGN(8); bss_end = .; end = .; } > RAM
    stack_top = ORIGIN(RAM) + LENGTH(RAM);
}
