// It counts down, and looks 900 times for input at each number: it waits for none.
#include "board.h"

uint32_t trap(uint32_t cause, uint32_t pc, uint32_t value) {
    (void)cause, (void)value;
    return pc + 4;
}

int main(void) {
    for (uint32_t left = 3; left > 0; left--) {
        put_number(left);
        for (int looks = 0; looks < 900; looks++)
            if (UART[5] & 1)
                return 1;
    }
    put(" started\n");
    return 0;
}
