/* The file is what stands from address 0 on: _start, the code, constants, and data. Behind it is
   what begins as 0, which the file does not hold. */
OUTPUT_ARCH(riscv)
ENTRY(_start)
SECTIONS
{
    . = 0;
    .text : { *(.text.start) *(.text .text.*) }
    .rodata : { *(.rodata .rodata.* .srodata .srodata.*) }
    .data : { *(.data .data.* .sdata .sdata.*) }
    .bss : { *(.bss .bss.* .sbss .sbss.* COMMON) }
    /DISCARD/ : { *(.comment .note.* .eh_frame .riscv.attributes) }
}
