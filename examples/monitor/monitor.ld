ENTRY(job)
PHDRS
{
    code PT_LOAD FLAGS(5);
    data PT_LOAD FLAGS(6);
}
SECTIONS
{
    .text 0x00400000 : { *(.text.job) *(.text .text.*) } :code
    .data 0x10000000 : { *(.rodata .rodata.* .data .data.* .sdata .bss .bss.* .sbss COMMON) } :data
    /DISCARD/ : { *(*) }
}
