/* A UART and a memory that C owns: the program in the simulated machine prints a line, and then
 * what it receives. The device changes on its own and by reads, which no memory of the kit may: so
 * C answers each load and store itself, by rrs_request and rrs_complete. */
#include <stdio.h>
#include <string.h>

#include "encode.h"
#include "rrs.h"

#define UART 0x10000000u
#define RAM 0x80000000u
#define RAM_SIZE 256u
#define WORD (RAM_SIZE - 4) /* the offset of the last word of RAM, which the program stores to */
#define TEXT 144            /* the offset of the text, behind the program */

/* As a 16550 has them: the data at offset 0, and the line status at 5. */
enum { DATA = 0, STATUS = 5, RECEIVED = 0x01, READY = 0x20 };

struct uart {
    const char *input; /* what is to be received */
    unsigned busy;     /* how many times the status will still say that it is not ready to send */
    unsigned refused;  /* how many bytes were written while it was not */
};

struct machine {
    rrs_hart hart;
    uint8_t ram[RAM_SIZE];
    struct uart uart;
};

static uint32_t uart_read(struct uart *uart, uint32_t offset) {
    uint32_t status = 0;
    if (offset == DATA) return *uart->input == 0 ? 0 : (uint8_t)*uart->input++;
    if (*uart->input != 0) status |= RECEIVED;
    if (uart->busy == 0) status |= READY;
    else uart->busy--;
    return status;
}

static void uart_write(struct uart *uart, uint32_t value) {
    if (uart->busy > 0) {
        uart->refused++;
        return;
    }
    putchar((int)(value & 255));
    uart->busy = 3;
}

/* Whether `size` bytes at an address are memory. */
static int is_ram(uint32_t address, uint32_t size) {
    return address >= RAM && address - RAM <= RAM_SIZE - size;
}

static uint32_t ram_read(const struct machine *machine, uint32_t address, uint32_t size) {
    uint32_t value = 0;
    while (size-- > 0) value = value << 8 | machine->ram[address - RAM + size];
    return value;
}

/* Makes an access that the instruction at the pc asks for. Returns 0 where it is refused. */
static int make_access(struct machine *machine, rrs_access access, uint32_t *value) {
    int at_uart = access.size == 1 &&
                  (access.address == UART + DATA || access.address == UART + STATUS);
    uint32_t i;
    if (access.kind == RRS_LOAD) {
        if (at_uart) *value = uart_read(&machine->uart, access.address - UART);
        else if (is_ram(access.address, access.size))
            *value = ram_read(machine, access.address, access.size);
        else return 0;
        return 1;
    }
    if (access.kind == RRS_STORE) {
        if (at_uart && access.address == UART + DATA) uart_write(&machine->uart, access.value);
        else if (is_ram(access.address, access.size))
            for (i = 0; i < access.size; i++)
                machine->ram[access.address - RAM + i] = (uint8_t)(access.value >> 8 * i);
        else return 0;
    }
    return 1;
}

static rrs_fault step(struct machine *machine) {
    uint32_t pc = machine->hart.pc, word, value = 0;
    int granted;
    if (pc % 4 == 0 && !is_ram(pc, 4)) {
        rrs_fault fault = {RRS_FETCH_FAULT, 0, 0};
        fault.address = pc;
        return fault;
    }
    word = pc % 4 == 0 ? ram_read(machine, pc, 4) : 0;
    granted = make_access(machine, rrs_request(&machine->hart, word), &value);
    return rrs_complete(&machine->hart, word, (uint32_t)granted, value);
}

/* Sends the byte in x12 once the device is ready. Returns how many words that are. */
static unsigned put_send(uint32_t *words) {
    words[0] = load(4, 13, 10, STATUS);      /* lbu  x13, STATUS(x10) */
    words[1] = i_type(0x13, 7, 13, 13, READY); /* andi x13, x13, READY */
    words[2] = b_type(0, 13, 0, -8);         /* beq  x13, x0, -8 */
    words[3] = s_type(0, 10, 12, DATA);      /* sb   x12, DATA(x10) */
    return 4;
}

static void make_program(uint8_t *ram, const char *text) {
    uint32_t words[RAM_SIZE / 4] = {0};
    unsigned i = 0, k;
    words[i++] = u_type(0x37, 10, UART);       /* lui   x10, UART */
    words[i++] = u_type(0x17, 11, 0);          /* auipc x11, 0 */
    words[i++] = addi(11, 11, TEXT - 4);       /* addi  x11, x11, TEXT - 4 */
    words[i++] = load(4, 12, 11, 0);           /* next: lbu x12, (x11) */
    words[i++] = b_type(0, 12, 0, 4 * 7);      /* beq   x12, x0, receive */
    i += put_send(words + i);
    words[i++] = addi(11, 11, 1);
    words[i++] = jal(0, -4 * 7);               /* j     next */
    words[i++] = load(4, 13, 10, STATUS);      /* receive: lbu x13, STATUS(x10) */
    words[i++] = i_type(0x13, 7, 13, 13, RECEIVED);
    words[i++] = b_type(0, 13, 0, 4 * 7);      /* beq   x13, x0, done */
    words[i++] = load(4, 12, 10, DATA);        /* lbu   x12, DATA(x10): takes the byte away */
    i += put_send(words + i);
    words[i++] = jal(0, -4 * 8);               /* j     receive */
    words[i++] = load(4, 17, 10, DATA);        /* done: lbu x17, DATA(x10): nothing is received */
    words[i++] = load(4, 17, 10, DATA);
    words[i++] = u_type(0x37, 14, RAM);        /* lui   x14, RAM */
    words[i++] = u_type(0x37, 15, 0x12345000); /* lui   x15, 0x12345000 */
    words[i++] = addi(15, 15, 0x678);          /* addi  x15, x15, 0x678 */
    words[i++] = s_type(1, 14, 15, WORD);      /* sh    x15, WORD(x14) */
    words[i++] = load(2, 16, 14, WORD);        /* lw    x16, WORD(x14) */
    words[i++] = 0x00100073;                   /* ebreak */
    words[i++] = s_type(2, 0, 15, 0);          /* sw    x15, 0(x0): what nothing takes */
    words[i++] = load(2, 15, 0, 0);            /* lw    x15, 0(x0) */
    words[i++] = s_type(0, 10, 15, STATUS);    /* sb    x15, STATUS(x10) */
    words[i++] = load(1, 15, 10, DATA);        /* lh    x15, DATA(x10) */
    words[i++] = load(0, 15, 14, RAM_SIZE);    /* lb    x15, RAM_SIZE(x14) */
    words[i++] = load(0, 15, 14, -1);          /* lb    x15, -1(x14) */
    for (k = 0; k < i; k++) {
        unsigned b;
        for (b = 0; b < 4; b++) ram[4 * k + b] = (uint8_t)(words[k] >> 8 * b);
    }
    memset(ram + WORD, 255, 4);
    memcpy(ram + TEXT, text, strlen(text) + 1);
}

int main(void) {
    static const uint32_t outside[] = {RAM - 4, RAM + RAM_SIZE, RAM + 2};
    static struct machine machine;
    unsigned steps = 0, i;
    rrs_fault fault, refused;
    make_program(machine.ram, "Hello, RISC-V!\n");
    machine.uart.input = "What it receives, it sends.\n";
    machine.hart.pc = RAM;
    do {
        fault = step(&machine);
        steps++;
    } while (fault.kind == RRS_OK && steps < 100000);
    printf("steps %u, fault kind %u at 0x%08x, bytes refused %u, x16 = 0x%08x\n", steps - 1,
           fault.kind, fault.address, machine.uart.refused, machine.hart.x[16]);
    for (i = 0; i < 9; i++) {
        /* each access that is refused, and then each pc at which no word of RAM begins */
        machine.hart.pc = i < 6 ? machine.hart.pc + 4 : outside[i - 6];
        refused = step(&machine);
        printf("fault kind %u at 0x%08x\n", refused.kind, refused.address);
    }
    return fault.kind != RRS_EBREAK || machine.uart.refused != 0;
}
