/* The sections as `rrs as` lays them: one behind the other from address 0 on, zeros too. */
ENTRY(main)
SECTIONS
{
    .all 0 : {
        *(.text .text.*)
        *(.rodata .rodata.* .srodata .srodata.*)
        *(.data .data.* .sdata .sdata.*)
        *(.bss .bss.* .sbss .sbss.* COMMON)
    } =0
    /DISCARD/ : { *(*) }
}
