// What a process has beside the calls of calls.c: a heap that grows by brk, and a clock.
#include <errno.h>
#include <stdint.h>
#include <sys/times.h>
#include <time.h>
#include <unistd.h>

// The name by which the program was called, or NULL
const char *argument_0;

static uintptr_t brk_to(uintptr_t address)
{
    register uintptr_t a0 __asm__("a0") = address;
    register uintptr_t a7 __asm__("a7") = 214;
    __asm__ volatile("ecall" : "+r"(a0) : "r"(a7) : "memory");
    return a0;
}

// Moves the end of the heap, and gives where it was.
void *sbrk(ptrdiff_t more)
{
    static uintptr_t end;
    if (end == 0) {
        end = brk_to(0);
    }
    uintptr_t wanted = end + more;
    if (brk_to(wanted) != wanted) {
        errno = ENOMEM;
        return (void *)-1;
    }
    uintptr_t start = end;
    end = wanted;
    return (void *)start;
}

// The time that the process has run, in units of 1 / CLOCKS_PER_SEC, by clock_gettime64 of
// CLOCK_PROCESS_CPUTIME_ID.
clock_t times(struct tms *times)
{
    struct {
        long long seconds;
        long long nanoseconds;
    } now;
    register long a0 __asm__("a0") = 2;
    register long a1 __asm__("a1") = (long)&now;
    register long a7 __asm__("a7") = 403;
    __asm__ volatile("ecall" : "+r"(a0) : "r"(a1), "r"(a7) : "memory");
    if (a0 < 0) {
        errno = ENOSYS;
        return -1;
    }
    clock_t ticks = now.seconds * CLOCKS_PER_SEC + now.nanoseconds / (1000000000 / CLOCKS_PER_SEC);
    *times = (struct tms){.tms_utime = ticks};
    return ticks;
}
