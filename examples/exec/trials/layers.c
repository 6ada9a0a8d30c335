// Extension A in a loop, a load and a store at misaligned addresses, and a reservation: the program
// that crates/tests_machine_mode/src/harts.rt runs by the library.
#include <stdint.h>
#include <stdio.h>

static uint32_t data[4] = {7, 0x44332211, 0x88776655, 0xccbbaa99};

int main(void)
{
    register uint32_t counter __asm__("t1") = (uint32_t)data;
    register uint32_t old __asm__("s1"), loaded __asm__("a0");
    register uint32_t reserved __asm__("a1"), failed __asm__("a2");
    __asm__ volatile("    addi x7, x0, 3\n"
                     "    addi x8, x0, 4\n"
                     "1:  amoadd.w x9, x7, (x6)\n"
                     "    addi x8, x8, -1\n"
                     "    bne x8, x0, 1b\n"
                     "    lw x10, 6(x6)\n"
                     "    sw x10, 9(x6)\n"
                     "    lr.w x11, (x6)\n"
                     "    sc.w x12, x7, (x6)\n"
                     : "=r"(old), "=r"(loaded), "=r"(reserved), "=r"(failed)
                     : "r"(counter)
                     : "x7", "x8", "memory");
    printf("%u 0x%08x %u %u\n", old, loaded, reserved, failed);
    printf("0x%08x 0x%08x 0x%08x 0x%08x\n", data[0], data[1], data[2], data[3]);
    return 0;
}
