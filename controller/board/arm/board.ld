/* The emulated board: 256 kilobytes of flash, 64 of memory. The stack grows down from the top to what the program holds. */
MEMORY {
    FLASH (rx) : ORIGIN = 0, LENGTH = 256K
    RAM (rwx) : ORIGIN = 0x20000000, LENGTH = 64K
}
ENTRY(reset)
SECTIONS {
    .text : {
        KEEP(*(.vectors))
        library_start = .;
        *libfairleadow.a:*(.text* .rodata*)
        library_end = .;
        *(.text* .rodata*)
    } >FLASH
    .ARM.exidx : { *(.ARM.exidx*) } >FLASH
    .data : { *(.data*) } >RAM
    .bss (NOLOAD) : {
        . = ALIGN(8);
        bss_start = .;
        *(.bss* COMMON)
        . = ALIGN(8);
        bss_end = .;
    } >RAM
    stack_top = ORIGIN(RAM) + LENGTH(RAM);
    /* no program here copies initial values from flash to memory */
    ASSERT(SIZEOF(.data) == 0, "a variable has an initial value")
    /* the budgets that controller/README.md states */
    ASSERT(library_end - library_start <= 49152, "the library's code is larger than its budget, 49,152 bytes")
    ASSERT(stack_top - bss_end >= 16384, "less than 16,384 bytes are left for the stack")
}
