ENTRY(start)
PHDRS
{
    code PT_LOAD FLAGS(5);
    fixed PT_LOAD FLAGS(4);
    data PT_LOAD FLAGS(6);
    fast PT_LOAD FLAGS(7);
}
SECTIONS
{
    .text 0x00400000 : { *(.text .text.*) } :code
    .rodata 0x00500000 : { *(.rodata .rodata.*) } :fixed
    .data 0x10000000 : { *(.data .data.* .sdata .sdata.*) } :data
    .bss : { *(.bss .bss.* .sbss .sbss.* COMMON) } :data
    room_end = .;
    .fast 0x20000000 : { *(.fast) } :fast
    a_number = 0x1234;
    /DISCARD/ : { *(.MIPS.abiflags .reginfo .gnu.attributes .pdr .comment) }
}
