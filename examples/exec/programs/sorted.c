// Sorts words and numbers by qsort.
#include <stdio.h>
#include <stdlib.h>
#include <string.h>

static int by_number(const void *a, const void *b)
{
    int x = *(const int *)a, y = *(const int *)b;
    return (x > y) - (x < y);
}

static int by_text(const void *a, const void *b)
{
    return strcmp(*(char *const *)a, *(char *const *)b);
}

int main(void)
{
    int numbers[1000];
    unsigned state = 1;
    for (int i = 0; i < 1000; i++) {
        state = state * 1103515245u + 12345u;
        numbers[i] = (int)(state >> 8) % 5000 - 2500;
    }
    qsort(numbers, 1000, sizeof numbers[0], by_number);
    long sum = 0;
    for (int i = 0; i < 1000; i++) {
        sum += (long)numbers[i] * (i % 7);
        if (i > 0 && numbers[i - 1] > numbers[i]) {
            puts("not sorted");
        }
    }
    printf("%d %d %d %ld\n", numbers[0], numbers[500], numbers[999], sum);
    const char *words[] = {"pear", "apple", "fig", "cherry", "date", "banana"};
    qsort(words, 6, sizeof words[0], by_text);
    for (int i = 0; i < 6; i++) {
        puts(words[i]);
    }
    return 0;
}
