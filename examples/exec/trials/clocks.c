// Asks for the time: what differs from run to run is compared with what it must be.
#include <errno.h>
#include <stdio.h>
#include <string.h>
#include <sys/time.h>
#include <sys/times.h>
#include <time.h>

#define CLOCK_GETTIME64 403

struct timespec64 {
    long long seconds;
    long long nanoseconds;
};

static long clock_gettime64(long clock, struct timespec64 *time)
{
    register long a0 __asm__("a0") = clock;
    register long a1 __asm__("a1") = (long)time;
    register long a7 __asm__("a7") = CLOCK_GETTIME64;
    __asm__ volatile("ecall" : "+r"(a0) : "r"(a1), "r"(a7) : "memory");
    return a0;
}

static long long nanoseconds(const struct timespec64 *time)
{
    return time->seconds * 1000000000 + time->nanoseconds;
}

// Whether a clock that is read again and again never goes back.
static int goes_on(long clock)
{
    struct timespec64 last, next;
    if (clock_gettime64(clock, &last) != 0) {
        return 0;
    }
    for (int i = 0; i < 1000; i++) {
        if (clock_gettime64(clock, &next) != 0 || next.nanoseconds < 0 ||
            next.nanoseconds >= 1000000000 || nanoseconds(&next) < nanoseconds(&last)) {
            return 0;
        }
        last = next;
    }
    return 1;
}

// Whether gettimeofday gives a time between two of the clock, in microseconds.
static int is_between(void)
{
    struct timespec64 before, after;
    struct timeval now;
    if (clock_gettime64(0, &before) != 0 || gettimeofday(&now, NULL) != 0 ||
        clock_gettime64(0, &after) != 0) {
        return 0;
    }
    long long told = now.tv_sec * 1000000LL + now.tv_usec;
    return now.tv_usec < 1000000 && told >= nanoseconds(&before) / 1000 &&
        told <= nanoseconds(&after) / 1000;
}

// Whether times gives how long the process has run, a few seconds at most. On the raw machine, whose
// main has no arguments, there is no such clock.
static int is_of_process(int count)
{
    struct tms ran = {0};
    clock_t ticks = times(&ran);
    if (count == 0) {
        return ticks == (clock_t)-1 && errno == ENOSYS && clock() == (clock_t)-1;
    }
    return ticks == ran.tms_utime && ran.tms_stime == 0 && ran.tms_cutime == 0 &&
        ran.tms_cstime == 0 && ticks < 20 * CLOCKS_PER_SEC;
}

int main(int count, char **words)
{
    (void)words;
    struct timespec64 now[2];
    time_t seconds = time(NULL);
    printf("time %d\n", seconds > 1600000000 && seconds < 4000000000);
    memset(now, -1, sizeof now);
    printf("clock_gettime64 %ld", clock_gettime64(0, now));
    printf(", %d", now[0].seconds - seconds == 0 || now[0].seconds - seconds == 1);
    printf(", %lld %lld behind it\n", now[1].seconds, now[1].nanoseconds);
    printf("monotonic %d, process %d, thread %d\n", goes_on(1), goes_on(2), goes_on(3));
    printf("gettimeofday %d, times %d\n", is_between(), is_of_process(count));
    printf("no clock %ld, %ld\n", clock_gettime64(1000, now), clock_gettime64(-1000, now));
    printf("no room %ld\n", clock_gettime64(0, (void *)0x7ff00000));
    return 0;
}
