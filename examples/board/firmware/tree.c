// Prints the bytes of the device tree that a1 points to, as digits.
#include "board.h"

void trap(uint32_t cause, uint32_t pc, uint32_t value, uint32_t *frame) {}

int main(uint32_t hart, const uint8_t *tree) {
    uint32_t size = (uint32_t)tree[4] << 24 | tree[5] << 16 | tree[6] << 8 | tree[7];
    for (uint32_t i = 0; i < size; i++) {
        put_byte("0123456789abcdef"[tree[i] >> 4]);
        put_byte("0123456789abcdef"[tree[i] & 15]);
    }
    return hart;
}
