ENTRY(job)
PHDRS
{
    code PT_LOAD FLAGS(5);
    data PT_LOAD FLAGS(6);
}
SECTIONS
{
    .text 0x00400000 : { *(.text .text.*) } :code
    .data 0x10001000 : { *(.data .data.* .sdata .bss .sbss COMMON) } :data
    /DISCARD/ : { *(*) }
}
