// Has values of its one thread, beside errno, and data that is zero; and asks for too much memory.
#include <errno.h>
#include <stdio.h>
#include <stdlib.h>
#include <unistd.h>

static _Thread_local char letter = 'a';
static _Thread_local long long large = 0x123456789;
static _Thread_local int counter;
static int zeros[1000];

int main(int count, char **words)
{
    (void)words;
    int sum = 0;
    for (int i = 0; i < 1000; i++) {
        sum += zeros[i];
    }
    printf("%c %llx %d %d %d\n", letter, large, counter, errno, sum);
    letter = 'b', large = -1, counter = 3, errno = 4, zeros[0] = 5, zeros[999] = 6;
    printf("%c %lld %d %d %d %d\n", letter, large, counter, errno, zeros[0], zeros[999]);
    void *none = malloc(0x7ff00000);
    printf("2047 MiB: %s\n", none == NULL && errno == ENOMEM ? "out of memory" : "there");
    char *end = sbrk(0), *first = sbrk(100);
    first[0] = first[99] = 'c';
    printf("the end goes on by %d, ", (int)((char *)sbrk(0) - end));
    printf("from %d, and back to %d\n", (int)(first - end), (int)((char *)sbrk(-100) - end));
    errno = 0;
    void *more = sbrk(0x7ff00000);
    // of the raw machine, whose main has no arguments, picolibc's own sbrk sets no error
    printf("no more: %d, and it stays: %d\n", more == (void *)-1 && (count == 0 || errno == ENOMEM),
           (char *)sbrk(0) == end);
    return 0;
}
