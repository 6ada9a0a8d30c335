// It waits where nothing can wake it.
#include <stdint.h>

uint32_t trap(uint32_t cause, uint32_t pc, uint32_t value) {
    (void)cause, (void)value;
    return pc + 4;
}

int main(void) {
    __asm__ volatile("csrw mie, zero\nwfi");
    return 0;
}
