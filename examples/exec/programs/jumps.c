// setjmp and longjmp, a table of functions, and arguments without a number.
#include <setjmp.h>
#include <stdarg.h>
#include <stdio.h>

static jmp_buf back;

static void descend(int depth)
{
    if (depth == 0) {
        longjmp(back, 42);
    }
    descend(depth - 1);
    printf("not reached at %d\n", depth);
}

static int sum(int count, ...)
{
    va_list rest;
    va_start(rest, count);
    int total = 0;
    for (int i = 0; i < count; i++) {
        total += va_arg(rest, int);
    }
    va_end(rest);
    return total;
}

static int add(int a, int b) { return a + b; }
static int subtract(int a, int b) { return a - b; }
static int multiply(int a, int b) { return a * b; }

int main(void)
{
    volatile int before = 7;
    int answer = setjmp(back);
    if (answer == 0) {
        before = 8;
        descend(100);
    }
    printf("%d %d\n", answer, before);
    int (*const table[])(int, int) = {add, subtract, multiply};
    for (int i = 0; i < 3; i++) {
        printf("%d\n", table[i](-12, 5));
    }
    printf("%d\n", sum(5, 1, 20, 300, 4000, 50000));
    return 0;
}
