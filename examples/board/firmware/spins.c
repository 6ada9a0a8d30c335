// It takes one interrupt at a jump to itself, and then none: the handler leaves the timer disabled.
#include "board.h"

uint32_t trap(uint32_t cause, uint32_t pc, uint32_t value) {
    (void)value;
    put_word(cause);
    put(" at the jump\n");
    csr_write(mie, 0);
    return pc;
}

int main(void) {
    alarm_in(200000);
    csr_write(mie, 0x80);
    csr_set(mstatus, 8);
    for (;;)
        ;
}
