// It starts anew for each byte but the last, and says how often it was started, by what it keeps.
#include "board.h"

static int starts = 1;

uint32_t trap(uint32_t cause, uint32_t pc, uint32_t value) {
    (void)cause, (void)value;
    return pc + 4;
}

int main(void) {
    put("start ");
    put_number(starts++);
    put(", mie ");
    put_word(csr_read(mie));
    csr_write(mie, 0x888);
    while (!(UART[5] & 1))
        ;
    char byte = UART[0];
    put(", ");
    put_byte(byte);
    put("\n");
    if (byte != '.')
        *(volatile uint32_t *)0x100000 = 0x7777;
    return starts;
}
