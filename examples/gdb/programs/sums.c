#include "start.h"

int table[8];
volatile int total;

static int sum(const int *numbers, int count) {
    int result = 0;
    for (int i = 0; i < count; i++)
        result += numbers[i];
    return result;
}

int main(int count, char **words) {
    for (int i = 0; i < 8; i++)
        table[i] = i * i;
    total = sum(table, 8);
    print("hello\n");
    total = total + 1;
    return total;
}
