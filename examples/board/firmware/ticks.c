// It looks for input once at each tick of the timer, ten times for each byte, and says a line back.
#include "board.h"

uint32_t trap(uint32_t cause, uint32_t pc, uint32_t value) {
    (void)cause, (void)value;
    return pc + 4;
}

int main(void) {
    csr_set(mie, 0x80);
    for (int ticks = 0; ticks < 10; ticks++) {
        alarm_in(1000);
        __asm__ volatile("wfi");
        if (UART[5] & 1) {
            char byte = UART[0];
            put_byte(byte);
            if (byte == '\n')
                return 0;
            ticks = 0;
        }
    }
    put("nothing was typed\n");
    return 1;
}
