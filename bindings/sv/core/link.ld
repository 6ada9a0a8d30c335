/* Where the core's programs stand, as riscv-arch-test has them: code first, then tohost, then data. */
OUTPUT_ARCH(riscv)
ENTRY(_start)
SECTIONS
{
    . = 0x80000000;
    .text : { *(.text.init) *(.text*) }
    . = ALIGN(0x1000);
    .tohost : { *(.tohost) }
    . = ALIGN(0x1000);
    .data : { *(.data*) *(.rodata*) *(.sdata*) }
    .bss : { *(.bss*) *(.sbss*) }
}
