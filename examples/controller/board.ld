/* qemu's board mps2-an386, of which the program takes as much as a controller with 64 KiB has. What lies in RAM is counted here: the link fails where the stack
   would get less than the operation that it calls may take. */
MEMORY {
    FLASH (rx) : ORIGIN = 0x00000000, LENGTH = 128K
    RAM (rw) : ORIGIN = 0x20000000, LENGTH = 64K
}
SECTIONS {
    .vectors : { KEEP(*(.vectors)) } > FLASH
    .text : { *(.text*) *(.rodata*) } > FLASH
    .data : { *(.data*) } > RAM
    .bss (NOLOAD) : { bss_begins = .; *(.bss*) *(COMMON) . = ALIGN(8); bss_ends = .; } > RAM
    stack_ends = ORIGIN(RAM) + LENGTH(RAM);
    /DISCARD/ : { *(.ARM.exidx*) }
    ASSERT(SIZEOF(.data) == 0, "nothing copies initialised data from flash to RAM")
    ASSERT(stack_ends - bss_ends >= 48K, "the text of a key may take 48 KiB of stack: docs/MANUAL.md, Memory and time on a controller")
}
