// It makes an ecall where mtvec points to no memory.
#include "board.h"

uint32_t trap(uint32_t cause, uint32_t pc, uint32_t value) {
    (void)cause, (void)value;
    return pc + 4;
}

int main(void) {
    put("calls\n");
    csr_write(mtvec, 0x4000);
    csr_set(mstatus, 8);
    __asm__ volatile("ecall");
    return 0;
}
