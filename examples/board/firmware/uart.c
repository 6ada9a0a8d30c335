// What the registers of the UART keep and tell: IER beside the divisor, LCR and SCR, and IIR.
#include "board.h"

uint32_t trap(uint32_t cause, uint32_t pc, uint32_t value) {
    (void)cause, (void)value;
    return pc + 4;
}

static void put_byte_as_hex(const char *name, uint32_t byte) {
    put(name);
    put_byte("0123456789abcdef"[byte >> 4 & 15]);
    put_byte("0123456789abcdef"[byte & 15]);
}

int main(void) {
    uint8_t seen[16];
    UART[1] = 0xf5;
    seen[0] = UART[1];
    UART[3] = 0x83; // DLAB: a driver sets its speed so
    UART[0] = 0x34;
    UART[1] = 0x12;
    seen[1] = UART[3];
    seen[2] = UART[0];
    seen[3] = UART[1];
    UART[3] = 0x03;
    seen[4] = UART[1];
    seen[5] = UART[3];
    UART[7] = 0xa5;
    seen[6] = UART[7];
    seen[7] = UART[5];
    seen[8] = UART[2]; // no interrupt: that of an empty THR is not enabled
    UART[1] = 2;
    seen[9] = UART[2]; // it is, and a look ends it
    seen[10] = UART[2];
    UART[2] = 1; // FIFOs: it comes again
    seen[11] = UART[2];
    seen[12] = UART[2];
    UART[0] = '.'; // a byte leaves, and it comes again
    seen[13] = UART[2];
    UART[1] = 0;
    UART[2] = 0;
    seen[14] = UART[2];
    seen[15] = UART[0];
    put_byte_as_hex("\nIER ", seen[0]);
    put_byte_as_hex(" LCR ", seen[1]);
    put_byte_as_hex(" DLL ", seen[2]);
    put_byte_as_hex(" DLM ", seen[3]);
    put_byte_as_hex(" IER ", seen[4]);
    put_byte_as_hex(" LCR ", seen[5]);
    put_byte_as_hex(" SCR ", seen[6]);
    put_byte_as_hex(" LSR ", seen[7]);
    put("\nIIR");
    for (int i = 8; i < 15; i++)
        put_byte_as_hex(" ", seen[i]);
    put_byte_as_hex(" RBR ", seen[15]);
    put("\n");
    return 0;
}
