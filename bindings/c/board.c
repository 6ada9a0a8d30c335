/* Runs a program on a board, and is its terminal: the program waits for a byte, transmits it, and
 * ends after a line. Prints what it transmits, and how it ended. */
#include <stdio.h>

#include "encode.h"
#include "rrs.h"

#define COUNT 64

static uint32_t words[COUNT];
static rrs_board board;

/* x1 is the UART: at 5 bit 0 says that a byte is there, which is at 0. x7 is the finisher. */
static void make_program(void) {
    unsigned count = 0;
    words[count++] = u_type(0x37, 1, 0x10000000);
    words[count++] = addi(9, 0, '\n');
    words[count++] = load(4, 4, 1, 5);
    words[count++] = i_type(0x13, 7, 4, 4, 1);
    words[count++] = b_type(0, 4, 0, -8);
    words[count++] = load(4, 5, 1, 0);
    words[count++] = s_type(0, 1, 5, 0);
    words[count++] = b_type(1, 5, 9, -20);
    words[count++] = u_type(0x37, 7, 0x100000);
    words[count++] = u_type(0x37, 8, 0x53000);
    words[count++] = addi(8, 8, 0x333);
    words[count++] = s_type(2, 7, 8, 0);
}

int main(void) {
    const char *typed = "proved\n";
    uint64_t steps = 0;
    rrs_board_end end;

    make_program();
    rrs_board_reset(&board, 0, 0x80000000);
    do {
        end = rrs_board_run(&board, words, COUNT, 1000);
        steps += end.steps;
        if (end.event == RRS_BOARD_TRANSMITTED) putchar((int)end.value);
        if (end.event == RRS_BOARD_LOOKED && *typed)
            typed += rrs_board_receive(&board, (uint32_t)*typed);
    } while (end.event == RRS_BOARD_TRANSMITTED || end.event == RRS_BOARD_LOOKED);
    printf("event %u, status %u, %u steps, time %u\n", end.event, end.value, (unsigned)steps,
           (unsigned)board.time);
    return 0;
}
