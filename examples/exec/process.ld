/* An ELF executable that is loaded at 0x10000, where qemu-riscv32 and Linux take one too: the code,
   the constants and the data in pages of their own, so that none but the data is writable. */
OUTPUT_ARCH(riscv)
ENTRY(_start)
PHDRS
{
    code PT_LOAD FILEHDR PHDRS FLAGS(5);
    constants PT_LOAD FLAGS(4);
    data PT_LOAD FLAGS(6);
    tls PT_TLS FLAGS(4);
}
SECTIONS
{
    . = 0x10000 + SIZEOF_HEADERS;
    .text : { *(.text.start) *(.text .text.*) } :code
    . = ALIGN(CONSTANT(MAXPAGESIZE));
    .rodata : { *(.rodata .rodata.* .srodata .srodata.*) } :constants
    /* Tables of gcc, where a program has them. */
    .eh_frame : { KEEP(*(.eh_frame .eh_frame.*)) } :constants
    . = ALIGN(CONSTANT(MAXPAGESIZE));
    /* The constructors, which _start calls, and the destructors, which exit calls. No code names
       them, so they are kept. */
    .init_array : {
        __preinit_array_start = .;
        KEEP(*(.preinit_array))
        __preinit_array_end = .;
        __init_array_start = .;
        KEEP(*(SORT_BY_INIT_PRIORITY(.init_array.*)))
        KEEP(*(.init_array))
        __init_array_end = .;
    } :data
    .fini_array : {
        __fini_array_start = .;
        KEEP(*(SORT_BY_INIT_PRIORITY(.fini_array.*)))
        KEEP(*(.fini_array))
        __fini_array_end = .;
    } :data
    . = ALIGN(16);
    .data : {
        __global_pointer$ = . + 0x800;
        *(.data .data.* .sdata .sdata.*)
    } :data
    /* What each thread has begins where tp points to, with its values and then with zeros, as
       errno. There is one thread, so it is used where it is. */
    . = ALIGN(16);
    .tdata : { __tls_start = .; *(.tdata .tdata.*) . = ALIGN(16); } :data :tls
    .tbss : { *(.tbss .tbss.*) } :data :tls
    .bss ADDR(.tbss) (NOLOAD) : {
        . += SIZEOF(.tbss);
        *(.sbss .sbss.* .bss .bss.* COMMON)
        . = ALIGN(16);
    } :data
}
