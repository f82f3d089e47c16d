/* The board `virt` with 64 MB of memory from 0x40000000 on. The instructions of the cases stand in pages of their own, which the levels below EL3 may execute and not write. */
ENTRY(_start)
serial = 0x09000000;
SECTIONS {
    . = 0x40080000;
    .text : { *(.text*) }
    .probes : ALIGN(4096) { *(.probes) }
    .rodata : ALIGN(4096) { *(.rodata*) }
    .data : { *(.data*) }
    .bss : { *(.bss*) }
    . = ALIGN(16);
    . += 0x10000;
    stack_top = .;
}
