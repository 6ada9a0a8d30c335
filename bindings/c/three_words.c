/* Runs three instructions and prints their texts, how the run ended, and a register. */
#include <stdio.h>

#include "rrs.h"

int main(void) {
    uint32_t words[] = {0x1234b137, 0xf387e1b7, 0x003100b3};
    uint32_t base = 0x80000000;
    rrs_hart hart = {{0}, 0, 0};
    rrs_end end;
    unsigned i;

    if (rrs_version() != RRS_VERSION) {
        fprintf(stderr, "rrs.h and librrs_c.a are of two versions\n");
        return 1;
    }
    for (i = 0; i < 3; i++) {
        char text[RRS_TEXT_SIZE];
        rrs_disassemble(words[i], base + 4 * i, text, sizeof text);
        printf("0x%08x: %s\n", base + 4 * i, text);
    }
    hart.pc = base;
    end = rrs_run(&hart, words, 3, base, 10);
    printf("steps %u, fault kind %u at 0x%08x, x1 = 0x%08x\n", (unsigned)end.steps, end.fault.kind,
           end.fault.address, hart.x[1]);
    return 0;
}
