// It sleeps through 1,000 ticks of the timer, and has nothing to do at any.
#include "board.h"

uint32_t trap(uint32_t cause, uint32_t pc, uint32_t value) {
    (void)cause, (void)value;
    return pc + 4;
}

int main(void) {
    csr_set(mie, 0x80);
    for (int ticks = 0; ticks < 1000; ticks++) {
        alarm_in(1000);
        __asm__ volatile("wfi");
    }
    put("slept\n");
    return 0;
}
