/* Assembles two sources in memory of its own: prints the words and the labels of one, and the
 * mistakes of the other. Where what is lent is too small, it says how much is wanted. */
#include <stdio.h>
#include <string.h>

#include "rrs.h"

#define ROOM 0x40000

/* what is lent; the room is aligned to 16 */
static union {
    uint8_t bytes[ROOM];
    long double aligned[ROOM / sizeof(long double)];
} room;
static uint8_t bytes[64];
static rrs_statement statements[16];
static rrs_symbol symbols[8];
static rrs_mistake mistakes[20];
static char texts[1024];

static const char program[] = ".macro twice register\n"
                              "    add \\register, \\register, \\register\n"
                              ".endm\n"
                              "_start: li a0, 0x12345678\n"
                              "loop:   twice a0\n"
                              "    bnez a0, loop\n"
                              "    ecall\n"
                              ".data\n"
                              "text:   .asciz \"end\"\n";

static const char wrong[] = "    addi a0, a0, 5000\n"
                            "    j lop\n"
                            "loop:\n";

/* Assembles a text for an address, and lends a part of the room and of the buffers. */
static rrs_assembled assemble(const char *text, size_t lent, size_t size) {
    rrs_room own = {0, 0};
    rrs_assembled made;
    own.start = room.bytes;
    own.size = lent;
    made = rrs_assemble((const uint8_t *)text, strlen(text), 0x1000, &own, bytes, size, statements,
                        16, symbols, 8, mistakes, 20, (uint8_t *)texts, sizeof texts);
    if (own.start != room.bytes || own.size != lent) printf("the room is another one\n");
    return made;
}

static void print_program(rrs_assembled made) {
    size_t i, k;
    printf("entry 0x%08x, %u bytes\n", made.entry, (unsigned)made.bytes);
    for (i = 0; i < made.statements; i++) {
        printf("line %u: 0x%08x:", (unsigned)statements[i].line, statements[i].address);
        for (k = 0; k < statements[i].size; k++)
            printf(" %02x", bytes[statements[i].address - 0x1000 + k]);
        printf("\n");
    }
    for (i = 0; i < made.symbols; i++)
        printf("line %u: %.*s = 0x%08x\n", (unsigned)symbols[i].line, (int)symbols[i].length,
               texts + symbols[i].name, symbols[i].address);
}

static void print_mistakes(rrs_assembled made) {
    size_t i;
    for (i = 0; i < made.mistakes; i++)
        printf("%u:%u: %.*s\n", (unsigned)mistakes[i].line, (unsigned)mistakes[i].column,
               (int)mistakes[i].length, texts + mistakes[i].text);
}

static void print(rrs_assembled made) {
    switch (made.end) {
    case RRS_ASSEMBLED: print_program(made); break;
    case RRS_MISTAKES: print_mistakes(made); break;
    case RRS_SMALL_ROOM: printf("a room of %u bytes is wanted\n", (unsigned)made.room); break;
    case RRS_SMALL_BUFFER: printf("%u bytes are wanted\n", (unsigned)made.bytes); break;
    }
}

int main(void) {
    print(assemble(program, ROOM, sizeof bytes));
    print(assemble(wrong, ROOM, sizeof bytes));
    print(assemble(program, ROOM, 23));
    print(assemble(program, 496, sizeof bytes));
    print(assemble(program, 0, sizeof bytes));
    return 0;
}
