// Makes the calls that newlib makes and that the Linux of 32 bits has in another form: fstat,
// newfstatat, lseek of three arguments, and gettimeofday.
#include <stdio.h>
#include <string.h>

#define LSEEK 62
#define NEWFSTATAT 79
#define FSTAT 80
#define GETTIMEOFDAY 169
#define AT_EMPTY_PATH 0x1000

// As newlib's struct kernel_stat has it, up to the times.
struct status {
    unsigned long long device, node;
    unsigned mode, links, user, group;
    unsigned long long special, unused;
    long long size;
    int block_size, unused_too;
    long long blocks;
    char times[24];
};

static long call(long number, long a, long b, long c, long d)
{
    register long a0 __asm__("a0") = a;
    register long a1 __asm__("a1") = b;
    register long a2 __asm__("a2") = c;
    register long a3 __asm__("a3") = d;
    register long a7 __asm__("a7") = number;
    __asm__ volatile("ecall" : "+r"(a0) : "r"(a1), "r"(a2), "r"(a3), "r"(a7) : "memory");
    return a0;
}

static void show(const char *name, long answer, const struct status *status)
{
    printf("%s %ld: mode %o, %u link, size %lld, blocks of %d\n", name, answer, status->mode,
           status->links, status->size, status->block_size);
}

int main(void)
{
    struct status status;
    memset(&status, -1, sizeof status);
    show("newfstatat", call(NEWFSTATAT, 1, (long)"", (long)&status, AT_EMPTY_PATH), &status);
    memset(&status, -1, sizeof status);
    show("fstat", call(FSTAT, 1, (long)&status, 0, 0), &status);
    memset(&status, 0, sizeof status);
    show("no file", call(NEWFSTATAT, -100, (long)"input.txt", (long)&status, 0), &status);
    printf("no path %ld\n", call(NEWFSTATAT, 1, (long)"", (long)&status, 0));
    printf("no descriptor %ld\n", call(NEWFSTATAT, 7, (long)"", (long)&status, AT_EMPTY_PATH));
    printf("no directory %ld\n", call(NEWFSTATAT, 1, (long)"input.txt", (long)&status, 0));
    printf("lseek %ld\n", call(LSEEK, 1, 0, 1, 0));
    long long now[3] = {-1, -1, -1};
    printf("gettimeofday %ld: ", call(GETTIMEOFDAY, (long)now, 0, 0, 0));
    printf("seconds %d, ", now[0] > 1600000000 && now[0] < 4000000000);
    printf("microseconds %d, behind it %lld\n", now[1] >= 0 && now[1] < 1000000, now[2]);
    printf("no room %ld\n", call(GETTIMEOFDAY, 0x7ff00000, 0, 0, 0));
    return 0;
}
