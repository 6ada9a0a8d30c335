// A shell on the UART: it reads a line at a time, and does what the line says.
#include "board.h"

static volatile uint32_t last_cause, last_value;

uint32_t trap(uint32_t cause, uint32_t pc, uint32_t value) {
    last_cause = cause;
    last_value = value;
    return pc + 4;
}

static int get_byte(void) {
    while (!(UART[5] & 1))
        ;
    return UART[0];
}

// a line without its end, at most size - 1 bytes; -1 for the end of input
static int get_line(char *line, int size) {
    int length = 0;
    for (;;) {
        int byte = get_byte();
        if (byte == 4 && length == 0)
            return -1;
        if (byte == '\n' || byte == '\r')
            break;
        if (length < size - 1)
            line[length++] = byte;
    }
    line[length] = 0;
    return length;
}

// what follows a word at the start of a line, or 0
static const char *after(const char *line, const char *word) {
    while (*word)
        if (*line++ != *word++)
            return 0;
    if (*line && *line != ' ')
        return 0;
    while (*line == ' ')
        line++;
    return line;
}

static const char *number(const char *text, uint32_t base, uint32_t *value) {
    *value = 0;
    for (;; text++) {
        uint32_t digit = *text >= 'a' ? *text - 'a' + 10u : *text - '0' + 0u;
        if (*text < '0' || digit >= base)
            break;
        *value = *value * base + digit;
    }
    while (*text == ' ')
        text++;
    return text;
}

static void add(const char *rest) {
    uint32_t sum = 0, value;
    while (*rest >= '0' && *rest <= '9') {
        rest = number(rest, 10, &value);
        sum += value;
    }
    put_number(sum);
    put("\n");
}

static void peek(const char *rest) {
    uint32_t address, word;
    number(rest, 16, &address);
    last_cause = ~0u;
    __asm__ volatile("lw %0, 0(%1)" : "=r"(word) : "r"(address) : "memory");
    if (last_cause == ~0u)
        put_word(word);
    else {
        put("cause ");
        put_number(last_cause);
        put(" at ");
        put_word(last_value);
    }
    put("\n");
}

static void sleep(const char *rest) {
    uint32_t units;
    number(rest, 10, &units);
    csr_set(mie, 0x80);
    uint64_t until = now() + units;
    alarm_in(units);
    while (now() < until)
        __asm__ volatile("wfi");
    csr_clear(mie, 0x80);
    put("awake\n");
}

int main(void) {
    char line[64];
    put("board shell\n");
    for (;;) {
        const char *rest;
        put("> ");
        if (get_line(line, sizeof line) < 0)
            break;
        if ((rest = after(line, "echo"))) {
            put(rest);
            put("\n");
        } else if ((rest = after(line, "add")))
            add(rest);
        else if ((rest = after(line, "peek")))
            peek(rest);
        else if ((rest = after(line, "sleep")))
            sleep(rest);
        else if (after(line, "call")) {
            __asm__ volatile("ecall");
            put("cause ");
            put_number(last_cause);
            put("\n");
        } else if ((rest = after(line, "exit"))) {
            uint32_t status;
            number(rest, 10, &status);
            put("bye\n");
            return status;
        } else if (line[0]) {
            put("echo add peek sleep call exit\n");
        }
    }
    put("end of input\n");
    return 0;
}
