// Waits until the clock of the process has gone on by more than a second, in which a count of
// nanoseconds begins again, and looks whether it begins with the process, never goes back, and goes on
// as the time of day does.
#include <stdio.h>
#include <sys/time.h>
#include <time.h>

enum { MOST = 60, BEGUN = 10 };

static long microseconds(const struct timeval *from, const struct timeval *to)
{
    return (to->tv_sec - from->tv_sec) * 1000000L + to->tv_usec - from->tv_usec;
}

int main(void)
{
    struct timeval begin, now;
    gettimeofday(&begin, NULL);
    clock_t before = clock(), last = before;
    int goes_back = 0;
    do {
        clock_t next = clock();
        goes_back |= next < last;
        last = next;
        gettimeofday(&now, NULL);
    } while (!goes_back && last - before <= CLOCKS_PER_SEC && now.tv_sec - begin.tv_sec < MOST);
    double ran = 1e6 * (last - before) / CLOCKS_PER_SEC;
    gettimeofday(&now, NULL);
    // others may run meanwhile
    printf("%s\n", before > BEGUN * CLOCKS_PER_SEC ? "begun before" : goes_back ? "goes back" :
           last - before <= CLOCKS_PER_SEC ? "too slow" : ran > microseconds(&begin, &now) ? "too fast" : "as the time");
    return 0;
}
