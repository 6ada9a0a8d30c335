// Three tasks take turns by the timer. Each computes until it had TURNS turns, with values of its own
// in all registers, and looks whether its result is what it would be alone: a register that a switch
// lost would change it. What
// is printed does not depend on how long a turn is.
#include "board.h"

enum { TASKS = 3, TURNS = 10, LENGTH = 1000 };

struct frame { uint32_t pc, registers[31]; };

static struct frame frames[TASKS];
static uint32_t stacks[TASKS][256];
static volatile uint32_t turns[TASKS];
static volatile int is_done[TASKS];
static uint32_t results[TASKS], wanted[TASKS];
static char order[TASKS * TURNS + 1];
static int current, switches;

void start_task(struct frame *frame);
uint32_t holds(uint32_t seed);
void finish(uint32_t status);

static uint32_t mixed(uint32_t x, uint32_t task) {
    for (uint32_t i = 0; i < 64; i++)
        x = x * (1664525 + 4 * task) + 1013904223 + (x >> 7) / (i + 1);
    return x;
}

static void task(uint32_t number) {
    uint32_t result = 0, rounds = 0;
    while (turns[number] < TURNS || rounds == 0) {
        result = mixed(number, number);
        for (int i = 0; i < 20; i++)
            result = holds(result);
        rounds++;
        if (result != wanted[number])
            break;
    }
    results[number] = result;
    __asm__ volatile("ecall");
}

static void report(void) {
    put("order ");
    put(order);
    put("\n");
    int failed = 0;
    for (int i = 0; i < TASKS; i++) {
        put("task ");
        put_byte('A' + i);
        put(results[i] == wanted[i] ? " kept its registers: " : " lost a register: ");
        put_word(results[i]);
        put("\n");
        failed += results[i] != wanted[i];
    }
    finish(failed);
}

// the next task that is not done, after the current one
struct frame *schedule(struct frame *frame, uint32_t cause) {
    if (cause == 11)
        is_done[current] = 1;
    else if (cause != 0x80000007) {
        put("cause ");
        put_word(cause);
        put("\n");
        finish(1);
    }
    int next = current, tried = 0;
    do {
        next = (next + 1) % TASKS;
        tried++;
    } while (is_done[next] && tried <= TASKS);
    if (tried > TASKS)
        report();
    current = next;
    turns[current]++;
    if (switches < TASKS * TURNS)
        order[switches++] = 'A' + current;
    alarm_in(LENGTH);
    (void)frame;
    return &frames[current];
}

int main(void) {
    put("three tasks\n");
    for (uint32_t i = 0; i < TASKS; i++) {
        wanted[i] = mixed(i, i);
        frames[i].pc = (uint32_t)task;
        frames[i].registers[1] = (uint32_t)(stacks[i] + 256);
        frames[i].registers[9] = i;
    }
    turns[0] = 1;
    order[switches++] = 'A';
    csr_set(mie, 0x80);
    csr_write(mstatus, 0x1880);
    alarm_in(LENGTH);
    start_task(&frames[0]);
    return 1;
}
