// Writes the pieces of vectors, and asks for the status of streams, by the calls of Linux themselves.
#include <stdio.h>
#include <string.h>
#include <sys/stat.h>

#define CALL_WRITEV 66
#define CALL_STATX 291
#define AT_FDCWD -100
#define AT_EMPTY_PATH 0x1000
#define STATX_BASIC_STATS 0x7ff

struct iovec {
    const void *base;
    size_t size;
};

// Up to the size.
struct statx {
    unsigned stx_mask, block_size, attributes[2], links, user, group;
    unsigned short mode, unused;
    unsigned long long node, size;
    char others[208];
};

static long call(long number, long a, long b, long c, long d, long e)
{
    register long a0 __asm__("a0") = a;
    register long a1 __asm__("a1") = b;
    register long a2 __asm__("a2") = c;
    register long a3 __asm__("a3") = d;
    register long a4 __asm__("a4") = e;
    register long a7 __asm__("a7") = number;
    __asm__ volatile("ecall"
                     : "+r"(a0)
                     : "r"(a1), "r"(a2), "r"(a3), "r"(a4), "r"(a7)
                     : "memory");
    return a0;
}

static long writev(int fd, const struct iovec *pieces, long count)
{
    return call(CALL_WRITEV, fd, (long)pieces, count, 0, 0);
}

// What a vector is answered, on a line behind what it wrote.
static void show_writev(int fd, const struct iovec *pieces, long count)
{
    fflush(stdout);
    printf("[%ld]\n", writev(fd, pieces, count));
}

static void write_vectors(void)
{
    static char many[1100];
    const void *nowhere = (const void *)0x7ff00000;
    struct iovec words[] = {{"one", 3}, {", ", 2}, {"two", 3}, {NULL, 0}, {" and three ", 11}};
    struct iovec late[] = {{"before ", 7}, {nowhere, 4}, {"after", 5}};
    struct iovec early[] = {{nowhere, 4}, {"after", 5}};
    struct iovec negative[] = {{"before", 6}, {"after", (size_t)-5}};
    struct iovec letters[1025];
    memset(many, 'm', sizeof many);
    for (int i = 0; i < 1025; i++) {
        letters[i] = (struct iovec){&many[i], 1};
    }
    show_writev(1, words, 5);
    show_writev(1, words, 1);
    show_writev(1, words, 0);
    show_writev(1, late, 3);
    show_writev(1, early, 2);
    show_writev(1, negative, 2);
    show_writev(1, letters, 1024);
    show_writev(1, letters, 1025);
    show_writev(1, nowhere, 1);
    show_writev(0, words, 1);
    show_writev(9, words, 1);
    show_writev(2, words, 4);
}

static long statx(int fd, const char *path, long flags, unsigned mask, struct statx *status)
{
    return call(CALL_STATX, fd, (long)path, flags, mask, (long)status);
}

int main(void)
{
    struct statx status;
    write_vectors();
    memset(&status, -1, sizeof status);
    long answer = statx(1, "", AT_EMPTY_PATH, STATX_BASIC_STATS, &status);
    int is_stream = S_ISFIFO(status.mode) || S_ISREG(status.mode);
    printf("%ld: %d, %u, %u, %d, %d\n", answer, (status.stx_mask & STATX_BASIC_STATS) == STATX_BASIC_STATS,
           status.block_size, status.links, is_stream, (int)sizeof status);
    printf("no descriptor %ld\n", statx(9, "", AT_EMPTY_PATH, STATX_BASIC_STATS, &status));
    printf("no path %ld\n", statx(1, "", 0, STATX_BASIC_STATS, &status));
    printf("no address %ld\n", statx(1, NULL, 0, STATX_BASIC_STATS, &status));
    printf("no file %ld\n", statx(AT_FDCWD, "no such file", 0, STATX_BASIC_STATS, &status));
    printf("no file %ld\n", statx(1, "/no such file", 0, STATX_BASIC_STATS, &status));
    printf("no directory %ld\n", statx(1, "file", 0, STATX_BASIC_STATS, &status));
    printf("no mask %ld\n", statx(1, "", AT_EMPTY_PATH, 0x80000000u, &status));
    printf("no room %ld\n", statx(1, "", AT_EMPTY_PATH, STATX_BASIC_STATS, (void *)0x7ff00000));
    return 0;
}
