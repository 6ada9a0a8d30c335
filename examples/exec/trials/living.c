// Runs for three seconds. It writes before that, without the end of a line, and behind.
#include <stdio.h>
#include <time.h>

int main(void)
{
    printf("begin, ");
    fflush(stdout);
    time_t begin = time(NULL);
    volatile unsigned turns = 0;
    while (time(NULL) - begin < 4) {
        for (unsigned turn = 0; turn < 1000; turn++) {
            turns++;
        }
    }
    printf("end\n");
    fprintf(stderr, "errors\n");
    return 3;
}
