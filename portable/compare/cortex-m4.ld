/* The board that qemu calls mps2-an386, a Cortex-M4: code at 0, data and stack in the RAM at 0x20000000. */
ENTRY(reset)
MEMORY {
    code (rx) : ORIGIN = 0x00000000, LENGTH = 4M
    data (rw) : ORIGIN = 0x20000000, LENGTH = 4M
}
SECTIONS {
    .text : {
        KEEP(*(.vectors))
        *(.text*)
        *(.rodata*)
        KEEP(*(.init))
        KEEP(*(.fini))
    } > code
    .ARM.exidx : { *(.ARM.exidx*) } > code
    .init_array : {
        PROVIDE_HIDDEN(__preinit_array_start = .);
        PROVIDE_HIDDEN(__preinit_array_end = .);
        PROVIDE_HIDDEN(__init_array_start = .);
        KEEP(*(.init_array*))
        PROVIDE_HIDDEN(__init_array_end = .);
    } > code
    stored = LOADADDR(.data);
    .data : {
        begin_data = .;
        *(.data*)
        . = ALIGN(4);
        end_data = .;
    } > data AT > code
    .bss (NOLOAD) : {
        __bss_start__ = .;
        *(.bss*)
        *(COMMON)
        . = ALIGN(4);
        __bss_end__ = .;
    } > data
    PROVIDE(end = .);
    __stack = ORIGIN(data) + LENGTH(data);
}
