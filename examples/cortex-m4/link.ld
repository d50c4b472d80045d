/*
 * A board with 4 MB of code memory at 0 and 2 MB of RAM: Arm's MPS2 with the image AN386, as
 * qemu-system-arm has it. -Wl,--defsym=CODE=..,--defsym=RAM=.. tells of others.
 */
ENTRY(reset)

MEMORY {
    code (rx)  : ORIGIN = DEFINED(CODE) ? CODE : 0x00000000, LENGTH = 4M
    ram  (rwx) : ORIGIN = DEFINED(RAM) ? RAM : 0x20000000, LENGTH = 2M
}

SECTIONS {
    .text : {
        KEEP(*(.vectors))
        *(.text .text.* .rodata .rodata.*)
    } >code
    .ARM.exidx : { *(.ARM.exidx .ARM.exidx.*) } >code

    /* The stack comes first: one that is too deep leaves the RAM and faults, and writes over nothing. */
    .stack (NOLOAD) : { *(.stack) } >ram

    .data : ALIGN(4) {
        data_begin = .;
        *(.data .data.*)
        . = ALIGN(4);
        data_end = .;
    } >ram AT>code
    data_load = LOADADDR(.data);

    .bss (NOLOAD) : ALIGN(4) {
        bss_begin = .;
        *(.bss .bss.* COMMON)
        . = ALIGN(4);
        bss_end = .;
    } >ram
}
