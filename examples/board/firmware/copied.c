// Firmware of picolibc's own start-up code and linker script: its data is loaded after its code, and
// copied to where it is used. It prints what it finds there, and what of it was changed.
#include <stdint.h>
#include <stdio.h>
#include <stdlib.h>

static int put(char byte, FILE *stream) {
    (void)stream;
    *(volatile uint8_t *)0x10000000 = (uint8_t)byte;
    return byte;
}

static FILE uart = FDEV_SETUP_STREAM(put, NULL, NULL, _FDEV_SETUP_WRITE);
FILE *const stdout = &uart;

static const char *volatile words[] = {"data", "that", "was", "copied"};
static volatile int counts[] = {1, 2, 3};
static volatile int zeros[3];

// the finisher
_Noreturn void _exit(int status) {
    *(volatile uint32_t *)0x100000 = (uint32_t)status << 16 | 0x3333;
    for (;;) {
    }
}

int main(void) {
    for (int i = 0; i < 4; i++) {
        printf("%s ", words[i]);
    }
    for (int i = 0; i < 3; i++) {
        counts[i] += 10 * counts[i] + zeros[i];
    }
    printf("%d %d %d\n", counts[0], counts[1], counts[2]);
    exit(3);
}
