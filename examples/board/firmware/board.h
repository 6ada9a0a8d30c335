// The devices of the board `virt`, and what the firmware here says over the UART.
#ifndef BOARD_H
#define BOARD_H
#include <stdint.h>

#define UART ((volatile uint8_t *)0x10000000)
#define MSIP (*(volatile uint32_t *)0x2000000)
#define MTIMECMP ((volatile uint32_t *)0x2004000)
#define MTIME ((volatile uint32_t *)0x200bff8)

#define csr_read(name) ({ uint32_t v_; __asm__ volatile("csrr %0, " #name : "=r"(v_)); v_; })
#define csr_write(name, v) __asm__ volatile("csrw " #name ", %0" ::"r"(v))
#define csr_set(name, v) __asm__ volatile("csrs " #name ", %0" ::"r"(v))
#define csr_clear(name, v) __asm__ volatile("csrc " #name ", %0" ::"r"(v))

static inline void put_byte(char byte) {
    while (!(UART[5] & 0x20))
        ;
    UART[0] = byte;
}

static inline void put(const char *text) {
    while (*text)
        put_byte(*text++);
}

static inline void put_number(uint32_t number) {
    if (number >= 10)
        put_number(number / 10);
    put_byte('0' + number % 10);
}

static inline void put_word(uint32_t word) {
    for (int shift = 28; shift >= 0; shift -= 4)
        put_byte("0123456789abcdef"[word >> shift & 15]);
}

static inline uint64_t now(void) {
    uint32_t high, low;
    do {
        high = MTIME[1];
        low = MTIME[0];
    } while (high != MTIME[1]);
    return (uint64_t)high << 32 | low;
}

static inline void alarm_in(uint32_t units) {
    uint64_t time = now() + units;
    MTIMECMP[1] = ~0u;
    MTIMECMP[0] = time;
    MTIMECMP[1] = time >> 32;
}
#endif
