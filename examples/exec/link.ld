/* A raw file that is loaded at address 0, and firmware for the RAM of a board: the code from BASE on, and
   then the data. SIZE is that of the memory. */
OUTPUT_ARCH(riscv)
ENTRY(_start)
EXTERN(_start)
SECTIONS
{
    . = BASE;
    .text : { *(.text.start) *(.text .text.*) *(.rodata .rodata.* .srodata .srodata.*) }
    /* The constructors, which _start calls, and the destructors, which exit calls. No code names
       them, so they are kept. */
    . = ALIGN(16);
    .init_array : {
        __preinit_array_start = .;
        KEEP(*(.preinit_array))
        __preinit_array_end = .;
        __init_array_start = .;
        KEEP(*(SORT_BY_INIT_PRIORITY(.init_array.*)))
        KEEP(*(.init_array))
        __init_array_end = .;
    }
    .fini_array : {
        __fini_array_start = .;
        KEEP(*(SORT_BY_INIT_PRIORITY(.fini_array.*)))
        KEEP(*(.fini_array))
        __fini_array_end = .;
    }
    . = ALIGN(16);
    .data : {
        __global_pointer$ = . + 0x800;
        *(.data .data.* .sdata .sdata.*)
    }
    /* What each thread has begins where tp points to, with its values and then with zeros, as
       errno. There is one thread, so it is used where it is. */
    . = ALIGN(16);
    .tdata : { __tls_start = .; *(.tdata .tdata.*) . = ALIGN(16); }
    .tbss : { *(.tbss .tbss.*) }
    .bss ADDR(.tbss) (NOLOAD) : {
        __bss_start = .;
        . += SIZEOF(.tbss);
        *(.sbss .sbss.* .bss .bss.* COMMON)
        . = ALIGN(16);
        __bss_end = .;
    }
    /* What is above the end of the heap is for the stack. */
    __heap_start = .;
    __stack = BASE + (DEFINED(SIZE) ? SIZE : 1M);
    __heap_end = __stack - 256K;
    .heap (NOLOAD) : { . += MAX(__heap_start, __heap_end) - __heap_start; }
}
ASSERT(__heap_start <= __heap_end, "the program does not fit below its stack of 256 KiB")
