/* qemu's board mps2-an386: the program in its first memory, its data in the 16 MiB behind. */
SECTIONS {
    .vectors 0 : { KEEP(*(.vectors)) }
    .text : { *(.text*) *(.rodata*) *(.data*) }
    .bss 0x21000000 (NOLOAD) : { *(.bss*) }
    /DISCARD/ : { *(.ARM.exidx*) }
}
