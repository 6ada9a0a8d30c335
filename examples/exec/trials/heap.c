// Takes all of the heap, and keeps a value in each part of it.
#include <errno.h>
#include <stdio.h>
#include <stdlib.h>

enum { PART = 10000 };

int main(void)
{
    int count = 0, wrong = 0;
    int *parts[100];
    while (count < 100 && (parts[count] = malloc(PART)) != NULL) {
        parts[count][0] = parts[count][PART / sizeof(int) - 1] = count;
        count++;
    }
    int error = errno;
    for (int i = 0; i < count; i++) {
        wrong += parts[i][0] != i || parts[i][PART / sizeof(int) - 1] != i;
    }
    printf("%d bytes or more: %d, wrong: %d, %s\n", 70 * PART, count >= 70, wrong,
           error == ENOMEM ? "out of memory" : "another error");
    return 0;
}
