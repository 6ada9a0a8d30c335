// The system calls that picolibc makes, by ecall, and the streams over them. With FOR_BOARD it is
// firmware that makes them, of the devices of rrs board.
#include <errno.h>
#include <signal.h>
#include <stddef.h>
#include <stdio-bufio.h>
#include <stdio.h>
#include <string.h>
#include <sys/stat.h>
#include <sys/time.h>
#include <sys/times.h>
#include <sys/types.h>
#include <unistd.h>

// What Linux answers for a call that is not served. picolibc has another number for it. The
// numbers of the other errors that a read or a write gives are the same.
#define LINUX_ENOSYS 38

static int fail(int error)
{
    errno = error;
    return -1;
}

#ifdef FOR_BOARD
#define UART ((volatile unsigned char *)0x10000000)
#define FINISHER (*(volatile unsigned *)0x100000)
#define MTIME ((volatile unsigned *)0x200bff8)

// A byte of the UART, for which the hart sleeps where nothing else wakes it
static unsigned char received(void)
{
    UART[1] = 1;
    while (!(UART[5] & 1)) {
        __asm__ volatile("wfi");
    }
    return UART[0];
}

static long call(long number, long a, long b, long c)
{
    unsigned char *bytes = (unsigned char *)b;
    switch (number) {
    case 57: // close
        return 0;
    case 63: // read, to the end of a line
        for (long count = 0; count < c; count++) {
            bytes[count] = received();
            if (bytes[count] == '\n') {
                return count + 1;
            }
        }
        return c;
    case 64: // write
        for (long count = 0; count < c; count++) {
            *UART = bytes[count];
        }
        return c;
    case 93: // exit
        FINISHER = a == 0 ? 0x5555 : (unsigned)a << 16 | 0x3333;
        return 0;
    case 403: // clock_gettime64, of ten million ticks a second
        for (unsigned high = MTIME[1];; high = MTIME[1]) {
            unsigned long long ticks = (unsigned long long)high << 32 | MTIME[0];
            if (high == MTIME[1]) {
                ((long long *)b)[0] = ticks / 10000000;
                ((long long *)b)[1] = ticks % 10000000 * 100;
                return 0;
            }
        }
    }
    return fail(ENOSYS);
}

// What a trap says that the program does not take
unsigned trap(unsigned cause, unsigned pc, unsigned value)
{
    unsigned words[] = {cause, pc, value};
    static const char *const names[] = {"trap: mcause 0x", ", mepc 0x", ", mtval 0x"};
    for (int i = 0; i < 3; i++) {
        call(64, 2, (long)names[i], strlen(names[i]));
        for (int shift = 28; shift >= 0; shift -= 4) {
            call(64, 2, (long)&"0123456789abcdef"[words[i] >> shift & 15], 1);
        }
    }
    call(64, 2, (long)"\n", 1);
    _exit(1);
}
#else
static long call(long number, long a, long b, long c)
{
    register long a0 __asm__("a0") = a;
    register long a1 __asm__("a1") = b;
    register long a2 __asm__("a2") = c;
    register long a7 __asm__("a7") = number;
    __asm__ volatile("ecall" : "+r"(a0) : "r"(a1), "r"(a2), "r"(a7) : "memory");
    if (a0 < 0 && a0 >= -4095) {
        return fail(a0 == -LINUX_ENOSYS ? ENOSYS : -a0);
    }
    return a0;
}
#endif

// library.c has these for pipes too.
#ifndef WITH_LIBRARY
ssize_t write(int fd, const void *bytes, size_t count)
{
    return call(64, fd, (long)bytes, count);
}

ssize_t read(int fd, void *bytes, size_t count)
{
    return call(63, fd, (long)bytes, count);
}

int close(int fd)
{
    return call(57, fd, 0, 0);
}
#endif

void _exit(int status)
{
    call(93, status, 0, 0);
    for (;;) {
    }
}

pid_t getpid(void)
{
    return 1;
}

// A signal that nothing catches ends the program, with the status that a shell gives it.
int kill(pid_t process, int signal)
{
    if (process != getpid()) {
        return fail(ESRCH);
    }
    if (signal != 0) {
        _exit(128 + signal);
    }
    return 0;
}

// Where no clock is served, time gives -1.
int gettimeofday(struct timeval *time, void *zone)
{
    struct {
        long long seconds;
        long long nanoseconds;
    } now;
    (void)zone;
    if (call(403, 0, (long)&now, 0) < 0) {
        return -1;
    }
    time->tv_sec = now.seconds;
    time->tv_usec = now.nanoseconds / 1000;
    return 0;
}

// process.c has one that counts.
__attribute__((weak)) clock_t times(struct tms *times)
{
    (void)times;
    return fail(ENOSYS);
}

// A program without library.c has no files, and its streams have no positions.
#ifndef WITH_LIBRARY
int open(const char *path, int flags, ...)
{
    (void)path, (void)flags;
    return fail(ENOSYS);
}

int unlink(const char *path)
{
    (void)path;
    return fail(ENOSYS);
}

int stat(const char *restrict path, struct stat *restrict status)
{
    (void)path, (void)status;
    return fail(ENOSYS);
}

int fstat(int fd, struct stat *status)
{
    (void)fd, (void)status;
    return fail(ENOSYS);
}

off_t lseek(int fd, off_t offset, int from)
{
    (void)fd, (void)offset, (void)from;
    return fail(ESPIPE);
}
#endif

// picolibc leaves the standard streams to the program: these read and write by the calls above.
// Standard input is read a buffer at a time, standard output is written a line at a time, and
// standard error a byte at a time.
static char input[BUFSIZ];
static char output[BUFSIZ];
static char error[1];

// Where a write takes fewer bytes, picolibc begins again with the first of them. So all is written,
// or the write fails.
static ssize_t write_all(int fd, const void *bytes, size_t count)
{
    for (size_t done = 0; done < count;) {
        ssize_t written = write(fd, (const char *)bytes + done, count - done);
        if (written <= 0) {
            return -1;
        }
        done += written;
    }
    return count;
}

// A line that is not ended, as a question, is written before the program waits for input.
static ssize_t read_after_output(int fd, void *bytes, size_t count)
{
    fflush(stdout);
    return read(fd, bytes, count);
}

static struct __file_bufio in = FDEV_SETUP_BUFIO(
    0, input, BUFSIZ, read_after_output, write_all, NULL, NULL, __SRD, 0);
static struct __file_bufio out =
    FDEV_SETUP_BUFIO(1, output, BUFSIZ, read, write_all, NULL, NULL, __SWR, __BLBF);
static struct __file_bufio err =
    FDEV_SETUP_BUFIO(2, error, 1, read, write_all, NULL, NULL, __SWR, 0);

FILE *const stdin = &in.xfile.cfile.file;
FILE *const stdout = &out.xfile.cfile.file;
FILE *const stderr = &err.xfile.cfile.file;

// At the end of the input picolibc's own fgets gives nothing for a last line that is not ended.
char *fgets(char *line, int size, FILE *stream)
{
    int count = 0;
    for (int c = 0; c != '\n' && count < size - 1; count++) {
        c = getc(stream);
        if (c == EOF) {
            break;
        }
        line[count] = c;
    }
    if (count == 0 && size != 1) {
        return NULL;
    }
    line[count] = '\0';
    return line;
}

// What is still in the buffer is written at the end, after the program's own destructors.
__attribute__((destructor(101))) static void flush(void)
{
    fflush(stdout);
}
