/* mps2-an385: 4 MB of code memory at 0, and 4 MB of RAM at 0x20000000. The first 4 kB of the RAM are under test. */
MEMORY
{
    code (rx) : ORIGIN = 0x00000000, LENGTH = 4M
    ram (rwx) : ORIGIN = 0x20001000, LENGTH = 4092K
}

SECTIONS
{
    .text : { KEEP(*(.vectors)) *(.text*) *(.rodata*) } >code
    .data : { data_to = .; *(.data*) . = ALIGN(4); data_end = .; } >ram AT>code
    data_from = LOADADDR(.data);
    .bss : { bss_to = .; *(.bss*) *(COMMON) . = ALIGN(4); bss_end = .; } >ram
    stack_top = ORIGIN(ram) + LENGTH(ram);
    /DISCARD/ : { *(.ARM.exidx*) *(.comment) }
}
