// What people's programs ask of a C library, and picolibc lacks. A function that is a system call
// of Linux makes it, by RV32's number: where the environment does not serve it, errno is ENOSYS. The
// others answer as on a machine with one user and one process. cc makes these names weak, so that a
// program may have its own.
#include <dirent.h>
#include <errno.h>
#include <fcntl.h>
#include <grp.h>
#include <malloc.h>
#include <poll.h>
#include <pwd.h>
#include <semaphore.h>
#include <signal.h>
#include <stdarg.h>
#include <stddef.h>
#include <stdint.h>
#include <stdio-bufio.h>
#include <stdio.h>
#include <stdio_ext.h>
#include <stdlib.h>
#include <string.h>
#include <sys/ioctl.h>
#include <sys/mman.h>
#include <sys/random.h>
#include <sys/resource.h>
#include <sys/stat.h>
#include <sys/time.h>
#include <sys/times.h>
#include <sys/utsname.h>
#include <sys/wait.h>
#include <termios.h>
#include <time.h>
#include <unistd.h>
#include <utime.h>

// The folder from where the program was started, as Linux has it in place of a descriptor.
#define HERE -100

// picolibc has other numbers than Linux for these errors. The first 34 are the same.
static const unsigned char linux_errors[][2] = {
    {35, EDEADLK}, {36, ENAMETOOLONG}, {37, ENOLCK}, {38, ENOSYS}, {39, ENOTEMPTY}, {40, ELOOP},
    {75, EOVERFLOW}, {84, EILSEQ}, {95, EOPNOTSUPP}, {110, ETIMEDOUT}, {122, EDQUOT},
};

static long call(long number, long a, long b, long c, long d, long e)
{
    register long a0 __asm__("a0") = a;
    register long a1 __asm__("a1") = b;
    register long a2 __asm__("a2") = c;
    register long a3 __asm__("a3") = d;
    register long a4 __asm__("a4") = e;
    register long a7 __asm__("a7") = number;
    __asm__ volatile("ecall" : "+r"(a0) : "r"(a1), "r"(a2), "r"(a3), "r"(a4), "r"(a7) : "memory");
    if (a0 >= 0 || a0 < -4095) {
        return a0;
    }
    errno = -a0;
    for (size_t i = 0; i < sizeof linux_errors / sizeof *linux_errors; i++) {
        if (linux_errors[i][0] == -a0) {
            errno = linux_errors[i][1];
        }
    }
    return -1;
}

static int fail(int error)
{
    errno = error;
    return -1;
}

static void *none(int error)
{
    errno = error;
    return NULL;
}

// The ends of the pipes that are made here have numbers above those of Linux. pipe sets what is
// done to them, so that a program without a pipe has none of it.
#define FIRST_END 1024
enum of_end { READ_END, WRITE_END, CLOSE_END };
static long (*does_to_end)(int fd, enum of_end what, void *bytes, size_t size);

ssize_t read(int fd, void *bytes, size_t size)
{
    return fd >= FIRST_END && does_to_end ? does_to_end(fd, READ_END, bytes, size)
                                          : call(63, fd, (long)bytes, size, 0, 0);
}
ssize_t write(int fd, const void *bytes, size_t size)
{
    return fd >= FIRST_END && does_to_end ? does_to_end(fd, WRITE_END, (void *)bytes, size)
                                          : call(64, fd, (long)bytes, size, 0, 0);
}
int close(int fd)
{
    return fd >= FIRST_END && does_to_end ? does_to_end(fd, CLOSE_END, NULL, 0)
                                          : call(57, fd, 0, 0, 0, 0);
}

// Files, which are served with --files.

// picolibc has other numbers than Linux for the flags of open.
static const int linux_flags[][2] = {
    {O_CREAT, 0x40}, {O_EXCL, 0x80}, {O_TRUNC, 0x200}, {O_APPEND, 0x400}, {O_NONBLOCK, 0x800},
    {O_DIRECTORY, 0x10000}, {O_NOFOLLOW, 0x20000}, {O_CLOEXEC, 0x80000},
};

// Flags by the other numbers: those of Linux (1), or picolibc's (0).
static int flags_of(int flags, int of_linux)
{
    int others = flags & O_ACCMODE;
    for (size_t i = 0; i < sizeof linux_flags / sizeof *linux_flags; i++) {
        others |= flags & linux_flags[i][!of_linux] ? linux_flags[i][of_linux] : 0;
    }
    return others;
}

int open(const char *path, int flags, ...)
{
    va_list more;
    va_start(more, flags);
    int mode = flags & O_CREAT ? va_arg(more, int) : 0;
    va_end(more);
    return call(56, HERE, (long)path, flags_of(flags, 1), mode, 0);
}

int unlink(const char *path)
{
    return call(35, HERE, (long)path, 0, 0, 0);
}

// struct stat64 of 32 bits, in words.
static int told(long answer, const unsigned *words, struct stat *status)
{
    if (answer < 0) {
        return -1;
    }
    memset(status, 0, sizeof *status);
    status->st_dev = words[0];
    status->st_ino = words[2];
    status->st_mode = words[4];
    status->st_nlink = words[5];
    status->st_uid = words[6];
    status->st_gid = words[7];
    status->st_size = words[12];
    status->st_blksize = words[14];
    status->st_blocks = words[16];
    status->st_atime = words[18];
    status->st_mtime = words[20];
    status->st_ctime = words[22];
    return 0;
}

int stat(const char *restrict path, struct stat *restrict status)
{
    unsigned words[26];
    return told(call(79, HERE, (long)path, (long)words, 0, 0), words, status);
}

int lstat(const char *restrict path, struct stat *restrict status)
{
    unsigned words[26];
    return told(call(79, HERE, (long)path, (long)words, 0x100, 0), words, status);
}

int fstat(int fd, struct stat *status)
{
    unsigned words[26];
    return told(call(80, fd, (long)words, 0, 0, 0), words, status);
}

off_t lseek(int fd, off_t offset, int from)
{
    long long position;
    return call(62, fd, (long long)offset >> 32, offset, (long)&position, from) < 0 ? -1 : position;
}

ssize_t pread(int fd, void *bytes, size_t size, off_t from)
{
    return call(67, fd, (long)bytes, size, from, (long long)from >> 32);
}
ssize_t pwrite(int fd, const void *bytes, size_t size, off_t from)
{
    return call(68, fd, (long)bytes, size, from, (long long)from >> 32);
}

// Paths.
int access(const char *path, int mode) { return call(48, HERE, (long)path, mode, 0, 0); }
int chdir(const char *path) { return call(49, (long)path, 0, 0, 0, 0); }
int chmod(const char *path, mode_t mode) { return call(53, HERE, (long)path, mode, 0, 0); }
// An owner of picolibc has 16 bits, of which Linux would not know the one that leaves it as it is.
static long owner_of(unsigned short number) { return number == 0xffff ? -1 : number; }
int chown(const char *path, uid_t user, gid_t group)
{
    return call(54, HERE, (long)path, owner_of(user), owner_of(group), 0);
}
int link(const char *from, const char *to)
{
    return call(37, HERE, (long)from, HERE, (long)to, 0);
}
int mkdir(const char *path, mode_t mode) { return call(34, HERE, (long)path, mode, 0, 0); }
ssize_t readlink(const char *restrict path, char *restrict bytes, size_t size)
{
    return call(78, HERE, (long)path, (long)bytes, size, 0);
}
int rename(const char *from, const char *to)
{
    return call(276, HERE, (long)from, HERE, (long)to, 0);
}
int rmdir(const char *path) { return call(35, HERE, (long)path, 0x200, 0, 0); }
int symlink(const char *from, const char *to)
{
    return call(36, (long)from, HERE, (long)to, 0, 0);
}
int truncate(const char *path, off_t length)
{
    return call(45, (long)path, length, (long long)length >> 32, 0, 0);
}
mode_t umask(mode_t mask) { return call(166, mask, 0, 0, 0, 0); }

char *getcwd(char *bytes, size_t size)
{
    return call(17, (long)bytes, size, 0, 0, 0) < 0 ? NULL : bytes;
}

int utimes(const char *path, const struct timeval times[2])
{
    long long moments[4];
    for (int i = 0; times && i < 2; i++) {
        moments[2 * i] = times[i].tv_sec;
        moments[2 * i + 1] = times[i].tv_usec * 1000;
    }
    return call(412, HERE, (long)path, times ? (long)moments : 0, 0, 0);
}

int utime(const char *path, const struct utimbuf *times)
{
    return utimes(path, times ? (struct timeval[]){{times->actime, 0}, {times->modtime, 0}} : NULL);
}

// Descriptors.
int dup(int fd) { return call(23, fd, 0, 0, 0, 0); }
int dup2(int fd, int to)
{
    return fd == to ? fcntl(fd, F_GETFD) < 0 ? -1 : to : call(24, fd, to, 0, 0, 0);
}
int fchmod(int fd, mode_t mode) { return call(52, fd, mode, 0, 0, 0); }
int fchown(int fd, uid_t user, gid_t group)
{
    return call(55, fd, owner_of(user), owner_of(group), 0, 0);
}
int fdatasync(int fd) { return call(83, fd, 0, 0, 0, 0); }
int fsync(int fd) { return call(82, fd, 0, 0, 0, 0); }
int ftruncate(int fd, off_t length)
{
    return call(46, fd, length, (long long)length >> 32, 0, 0);
}

// A pipe of one process is a buffer of as many bytes as Linux has. Where one would wait for another
// process, there is none, and errno is EAGAIN.
#define PIPE_SIZE 65536
static struct pipe {
    int is_open[2];
    int flags[2];
    size_t size;
    char bytes[PIPE_SIZE];
} *pipes[8];

static long do_to_end(int fd, enum of_end what, void *bytes, size_t size)
{
    size_t at = (fd - FIRST_END) / 2;
    int end = fd % 2;
    struct pipe *of = at < sizeof pipes / sizeof *pipes ? pipes[at] : NULL;
    if (!of || !of->is_open[end] || (what != CLOSE_END && end != (what == WRITE_END))) {
        return fail(EBADF);
    }
    if (what == CLOSE_END) {
        of->is_open[end] = 0;
        if (!of->is_open[!end]) {
            free(of);
            pipes[at] = NULL;
        }
        return 0;
    }
    if (what == READ_END) {
        if (of->size == 0 && size > 0 && of->is_open[1]) {
            return fail(EAGAIN);
        }
        size = size < of->size ? size : of->size;
        memcpy(bytes, of->bytes, size);
        of->size -= size;
        memmove(of->bytes, of->bytes + size, of->size);
        return size;
    }
    if (!of->is_open[0]) {
        raise(SIGPIPE);
        return fail(EPIPE);
    }
    // what is no longer than 4096 bytes is written at once
    size_t left = PIPE_SIZE - of->size;
    if (size > left && (left == 0 || size <= 4096)) {
        return fail(EAGAIN);
    }
    size = size < left ? size : left;
    memcpy(of->bytes + of->size, bytes, size);
    of->size += size;
    return size;
}

int pipe(int ends[2])
{
    int before = errno;
    if (call(59, (long)ends, 0, 0, 0, 0) == 0) {
        return 0;
    }
    if (errno != ENOSYS) {
        return -1;
    }
    for (size_t at = 0; at < sizeof pipes / sizeof *pipes; at++) {
        if (pipes[at]) {
            continue;
        }
        if (!(pipes[at] = calloc(1, sizeof *pipes[at]))) {
            return fail(ENFILE);
        }
        pipes[at]->is_open[0] = pipes[at]->is_open[1] = 1;
        ends[0] = FIRST_END + 2 * at;
        ends[1] = ends[0] + 1;
        does_to_end = do_to_end;
        errno = before;
        return 0;
    }
    return fail(EMFILE);
}

// The flags of an end of a pipe that is made here, or NULL.
static int *flags_of_end(int fd)
{
    size_t at = (fd - FIRST_END) / 2;
    struct pipe *of = fd >= FIRST_END && at < sizeof pipes / sizeof *pipes ? pipes[at] : NULL;
    return of && of->is_open[fd % 2] ? &of->flags[fd % 2] : NULL;
}

// A lock is granted, since there is one process. The other commands have Linux's numbers up to
// F_SETFL; picolibc's others are refused.
int fcntl(int fd, int command, ...)
{
    va_list more;
    va_start(more, command);
    long argument = va_arg(more, long);
    va_end(more);
    int *flags = flags_of_end(fd);
    if (!flags && does_to_end && fd >= FIRST_END) {
        return fail(EBADF);
    }
    switch (command) {
    case F_GETLK:
    case F_SETLK:
    case F_SETLKW:
        if (call(25, fd, F_GETFD, 0, 0, 0) < 0) {
            return -1;
        }
        if (command == F_GETLK) {
            ((struct flock *)argument)->l_type = F_UNLCK;
        }
        return 0;
    case F_GETFL: {
        int of_linux = flags ? 0 : call(25, fd, command, 0, 0, 0);
        return flags ? *flags | fd % 2 : of_linux < 0 ? -1 : flags_of(of_linux, 0);
    }
    case F_SETFL:
        if (flags) {
            *flags = argument & O_NONBLOCK;
            return 0;
        }
        return call(25, fd, command, flags_of(argument, 1), 0, 0);
    case F_GETFD:
    case F_SETFD:
        return flags ? 0 : call(25, fd, command, argument, 0, 0);
    case F_DUPFD:
        return call(25, fd, command, argument, 0, 0);
    }
    return fail(ENOSYS);
}

int ioctl(int fd, unsigned long request, ...)
{
    va_list more;
    va_start(more, request);
    long argument = va_arg(more, long);
    va_end(more);
    return call(29, fd, request, argument, 0, 0);
}

// TCGETS, which a terminal alone answers, and TCSETS and those after it.
int tcgetattr(int fd, struct termios *terminal) { return ioctl(fd, 0x5401, terminal); }
int tcsetattr(int fd, int when, const struct termios *terminal)
{
    return when < TCSANOW || when > TCSAFLUSH ? fail(EINVAL) : ioctl(fd, 0x5402 + when, terminal);
}

// TCSBRK and TCFLSH
int tcdrain(int fd) { return ioctl(fd, 0x5409, 1L); }
int tcflush(int fd, int queue) { return ioctl(fd, 0x540b, (long)queue); }

speed_t cfgetospeed(const struct termios *terminal) { return terminal->c_cflag & CBAUD; }
speed_t cfgetispeed(const struct termios *terminal) { return cfgetospeed(terminal); }
int cfsetospeed(struct termios *terminal, speed_t speed)
{
    if ((speed & ~CBAUD) != 0) {
        return fail(EINVAL);
    }
    terminal->c_cflag = (terminal->c_cflag & ~CBAUD) | speed;
    return 0;
}
// 0 is that of the output.
int cfsetispeed(struct termios *terminal, speed_t speed)
{
    return speed == B0 ? 0 : cfsetospeed(terminal, speed);
}

int isatty(int fd)
{
    struct termios terminal;
    return tcgetattr(fd, &terminal) == 0;
}

int poll(struct pollfd *of, nfds_t count, int wait)
{
    long long time[2] = {wait / 1000, wait % 1000 * 1000000};
    return call(414, (long)of, count, wait < 0 ? 0 : (long)time, 0, 0);
}

// A folder that is open: entries as Linux gives them, `next` the one that is read next.
struct _dir {
    int fd;
    size_t next;
    size_t size;
    long long position;
    struct dirent entry;
    char bytes[4096];
};

DIR *fdopendir(int fd)
{
    DIR *folder = malloc(sizeof *folder);
    if (!folder) {
        return none(ENOMEM);
    }
    folder->fd = fd;
    folder->next = folder->size = folder->position = 0;
    return folder;
}

DIR *opendir(const char *path)
{
    int fd = open(path, O_RDONLY | O_DIRECTORY | O_CLOEXEC);
    DIR *folder = fd < 0 ? NULL : fdopendir(fd);
    if (fd >= 0 && !folder) {
        close(fd);
    }
    return folder;
}

// struct linux_dirent64: a number and the position after it in 8 bytes each, its size in 2, its
// kind, and its name from the 20th byte on.
struct dirent *readdir(DIR *folder)
{
    if (folder->next == folder->size) {
        long size = call(61, folder->fd, (long)folder->bytes, sizeof folder->bytes, 0, 0);
        folder->next = 0;
        folder->size = size < 0 ? 0 : size;
        if (size <= 0) {
            return NULL;
        }
    }
    const char *entry = folder->bytes + folder->next;
    unsigned short size;
    memcpy(&folder->entry.d_ino, entry, sizeof folder->entry.d_ino);
    memcpy(&folder->position, entry + 8, sizeof folder->position);
    memcpy(&size, entry + 16, sizeof size);
    folder->entry.d_type = entry[18];
    strcpy(folder->entry.d_name, entry + 19);
    folder->next += size;
    return &folder->entry;
}

void seekdir(DIR *folder, long position)
{
    folder->next = folder->size = 0;
    folder->position = lseek(folder->fd, position, SEEK_SET);
}
long telldir(DIR *folder) { return folder->position; }
void rewinddir(DIR *folder) { seekdir(folder, 0); }
int dirfd(DIR *folder) { return folder->fd; }
int closedir(DIR *folder)
{
    int fd = folder->fd;
    free(folder);
    return close(fd);
}

// What the buffer of a stream holds.
static struct __file_bufio *buffer_of(FILE *stream) { return (struct __file_bufio *)stream; }
static int is_for(FILE *stream, int way) { return (stream->flags & way) != 0; }
size_t __fpending(FILE *stream)
{
    return buffer_of(stream)->dir == __SWR ? buffer_of(stream)->len : 0;
}
size_t __freadahead(FILE *stream)
{
    struct __file_bufio *buffer = buffer_of(stream);
    return buffer->dir == __SRD ? buffer->len - buffer->off + (stream->unget != 0) : 0;
}
size_t __fbufsize(FILE *stream) { return buffer_of(stream)->size; }
int __freadable(FILE *stream) { return is_for(stream, __SRD); }
int __fwritable(FILE *stream) { return is_for(stream, __SWR); }
int __freading(FILE *stream) { return !is_for(stream, __SWR) || buffer_of(stream)->dir == __SRD; }
int __fwriting(FILE *stream) { return !is_for(stream, __SRD) || buffer_of(stream)->dir == __SWR; }
int __flbf(FILE *stream) { return (buffer_of(stream)->bflags & __BLBF) != 0; }
void __fpurge(FILE *stream)
{
    buffer_of(stream)->len = buffer_of(stream)->off = 0;
    stream->unget = 0;
}
void __fseterr(FILE *stream) { stream->flags |= __SERR; }

// Users. Where the environment has none, the number is 0.
static long number_of(long number)
{
    int before = errno;
    long answer = call(number, 0, 0, 0, 0, 0);
    errno = before;
    return answer < 0 ? 0 : answer;
}

uid_t getuid(void) { return number_of(174); }
uid_t geteuid(void) { return number_of(175); }
gid_t getgid(void) { return number_of(176); }
gid_t getegid(void) { return number_of(177); }
pid_t getppid(void) { return number_of(173); }

// The one user is called so, and no group has a name.
struct passwd *getpwuid(uid_t user)
{
    static struct passwd entry = {
        .pw_name = "user", .pw_passwd = "x", .pw_comment = "", .pw_gecos = "", .pw_dir = "/",
        .pw_shell = "/bin/sh",
    };
    entry.pw_uid = getuid();
    entry.pw_gid = getgid();
    return user == entry.pw_uid ? &entry : none(ENOENT);
}
struct passwd *getpwnam(const char *name)
{
    return strcmp(name, "user") == 0 ? getpwuid(getuid()) : none(ENOENT);
}
struct group *getgrgid(gid_t group)
{
    (void)group;
    return none(ENOENT);
}
struct group *getgrnam(const char *name)
{
    (void)name;
    return none(ENOENT);
}
char *getlogin(void) { return none(ENOENT); }

// There is one process.
pid_t fork(void) { return fail(ENOSYS); }
int execv(const char *path, char *const arguments[])
{
    (void)path, (void)arguments;
    return fail(ENOSYS);
}
int execvp(const char *path, char *const arguments[]) { return execv(path, arguments); }
int execve(const char *path, char *const arguments[], char *const names[])
{
    (void)names;
    return execv(path, arguments);
}
int execl(const char *path, const char *argument, ...)
{
    (void)path, (void)argument;
    return fail(ENOSYS);
}
int execlp(const char *path, const char *argument, ...)
{
    (void)path, (void)argument;
    return fail(ENOSYS);
}
FILE *popen(const char *command, const char *mode)
{
    (void)command, (void)mode;
    return none(ENOSYS);
}
int pclose(FILE *stream)
{
    (void)stream;
    return fail(ECHILD);
}
pid_t wait(int *status)
{
    (void)status;
    return fail(ECHILD);
}
pid_t waitpid(pid_t process, int *status, int options)
{
    (void)process, (void)options;
    return wait(status);
}

// There is one thread: one that waits would never go on.
int sem_init(sem_t *of, int shared, unsigned value)
{
    (void)shared;
    of->value = value;
    return value > SEM_VALUE_MAX ? fail(EINVAL) : 0;
}
int sem_destroy(sem_t *of)
{
    (void)of;
    return 0;
}
int sem_post(sem_t *of) { return of->value == SEM_VALUE_MAX ? fail(EOVERFLOW) : (of->value++, 0); }
int sem_wait(sem_t *of) { return of->value == 0 ? fail(EDEADLK) : (of->value--, 0); }
int sem_trywait(sem_t *of) { return of->value == 0 ? fail(EAGAIN) : (of->value--, 0); }
int sem_timedwait(sem_t *restrict of, const struct timespec *restrict until)
{
    (void)until;
    return of->value == 0 ? fail(ETIMEDOUT) : (of->value--, 0);
}
int sem_getvalue(sem_t *restrict of, int *restrict value)
{
    *value = of->value;
    return 0;
}

// A signal comes from raise alone, so none waits.
int sigaction(int number, const struct sigaction *wanted, struct sigaction *before)
{
    // signal tells the handler before, and sets another
    _sig_func_ptr was = signal(number, wanted ? wanted->sa_handler : SIG_DFL);
    if (was == SIG_ERR) {
        return -1;
    }
    if (!wanted) {
        signal(number, was);
    }
    if (before) {
        *before = (struct sigaction){.sa_handler = was};
    }
    return 0;
}

int sigprocmask(int how, const sigset_t *set, sigset_t *before)
{
    (void)how, (void)set;
    if (before) {
        *before = 0;
    }
    return 0;
}

unsigned alarm(unsigned seconds)
{
    (void)seconds;
    return 0;
}

// Time. The clocks have Linux's numbers in the system call.
static int by_clock(long number, clockid_t clock, struct timespec *time)
{
    long long now[2];
    long of = clock == CLOCK_REALTIME ? 0 : clock == CLOCK_MONOTONIC ? 1 : (long)clock;
    if ((of > 3 && fail(EINVAL)) || call(number, of, (long)now, 0, 0, 0) < 0) {
        return -1;
    }
    *time = (struct timespec){.tv_sec = now[0], .tv_nsec = now[1]};
    return 0;
}

int clock_gettime(clockid_t clock, struct timespec *time) { return by_clock(403, clock, time); }
int clock_getres(clockid_t clock, struct timespec *time) { return by_clock(406, clock, time); }

int nanosleep(const struct timespec *wanted, struct timespec *left)
{
    long long time[2] = {wanted->tv_sec, wanted->tv_nsec};
    long long rest[2] = {time[0], time[1]};
    if (call(407, 0, 0, (long)time, (long)rest, 0) == 0) {
        return 0;
    }
    if (left) {
        *left = (struct timespec){.tv_sec = rest[0], .tv_nsec = rest[1]};
    }
    return -1;
}

unsigned sleep(unsigned seconds)
{
    struct timespec time = {.tv_sec = seconds};
    return nanosleep(&time, &time) == 0 ? 0 : time.tv_sec;
}

int usleep(useconds_t microseconds)
{
    struct timespec time = {microseconds / 1000000, microseconds % 1000000 * 1000};
    return nanosleep(&time, NULL);
}

int getrusage(int of, struct rusage *usage)
{
    struct timespec time;
    if (of != RUSAGE_SELF) {
        return fail(of == RUSAGE_CHILDREN ? ENOSYS : EINVAL);
    }
    if (clock_gettime(CLOCK_PROCESS_CPUTIME_ID, &time) < 0) {
        return -1;
    }
    *usage = (struct rusage){.ru_utime = {.tv_sec = time.tv_sec, .tv_usec = time.tv_nsec / 1000}};
    return 0;
}

// Random numbers.
ssize_t getrandom(void *bytes, size_t size, unsigned flags) { return call(278, (long)bytes, size, flags, 0, 0); }

int getentropy(void *bytes, size_t size)
{
    if (size > 256) {
        return fail(EIO);
    }
    for (size_t have = 0; have < size;) {
        ssize_t more = getrandom((char *)bytes + have, size - have, 0);
        if (more < 0) {
            return -1;
        }
        have += more;
    }
    return 0;
}

// The machine.
int uname(struct utsname *names) { return call(160, (long)names, 0, 0, 0, 0); }

int gethostname(char *name, size_t size)
{
    struct utsname names;
    if (uname(&names) < 0) {
        return -1;
    }
    strlcpy(name, names.nodename, size);
    return strlen(names.nodename) < size ? 0 : fail(ENAMETOOLONG);
}

int getdtablesize(void) { return FOPEN_MAX; }

const char *getprogname(void)
{
    extern const char *argument_0;
    const char *last = argument_0 ? strrchr(argument_0, '/') : "";
    return last ? last + (*last == '/') : argument_0;
}

long sysconf(int name)
{
    switch (name) {
    case _SC_PAGESIZE:
        return 4096;
    case _SC_CLK_TCK:
        return CLOCKS_PER_SEC;
    case _SC_NPROCESSORS_CONF:
    case _SC_NPROCESSORS_ONLN:
        return 1;
    case _SC_OPEN_MAX:
        return FOPEN_MAX;
    }
    return fail(EINVAL);
}

long pathconf(const char *path, int name)
{
    (void)path;
    return name == _PC_NAME_MAX                           ? 255
           : name == _PC_PATH_MAX || name == _PC_PIPE_BUF ? 4096
                                                          : fail(EINVAL);
}

// Memory comes from brk alone, by malloc.
void *mmap(void *address, size_t size, int rights, int flags, int fd, off_t offset)
{
    (void)address, (void)size, (void)rights, (void)flags, (void)fd, (void)offset;
    return fail(ENOSYS), MAP_FAILED;
}
int munmap(void *address, size_t size)
{
    (void)address, (void)size;
    return fail(ENOSYS);
}

// There is one hart and one thread, so an atomic access is a plain one. gcc and clang call these of
// each size, and do not let C define them by their own names.
#define NAMED(type, name, size, ...)                                                              \
    type own_##name##_##size(__VA_ARGS__) __asm__(#name "_" #size);                               \
    type own_##name##_##size(__VA_ARGS__)
#define FETCHES(type, size, name, operation)                                                      \
    NAMED(type, __atomic_fetch_##name, size, type *at, type value, int order)                     \
    {                                                                                             \
        (void)order;                                                                              \
        type was = *at;                                                                           \
        *at = operation;                                                                          \
        return was;                                                                               \
    }                                                                                             \
    NAMED(type, __sync_fetch_and_##name, size, type *at, type value)                              \
    {                                                                                             \
        type was = *at;                                                                           \
        *at = operation;                                                                          \
        return was;                                                                               \
    }
#define ATOMIC(type, size)                                                                        \
    NAMED(type, __atomic_load, size, const type *at, int order)                                   \
    {                                                                                             \
        (void)order;                                                                              \
        return *at;                                                                               \
    }                                                                                             \
    NAMED(void, __atomic_store, size, type *at, type value, int order)                            \
    {                                                                                             \
        (void)order;                                                                              \
        *at = value;                                                                              \
    }                                                                                             \
    NAMED(_Bool, __atomic_compare_exchange, size, type *at, type *expected, type value, int weak, \
          int order, int otherwise)                                                               \
    {                                                                                             \
        (void)weak, (void)order, (void)otherwise;                                                 \
        if (*at == *expected) {                                                                   \
            *at = value;                                                                          \
            return 1;                                                                             \
        }                                                                                         \
        *expected = *at;                                                                          \
        return 0;                                                                                 \
    }                                                                                             \
    NAMED(type, __sync_val_compare_and_swap, size, type *at, type expected, type value)           \
    {                                                                                             \
        type was = *at;                                                                           \
        *at = was == expected ? value : was;                                                      \
        return was;                                                                               \
    }                                                                                             \
    NAMED(_Bool, __sync_bool_compare_and_swap, size, type *at, type expected, type value)         \
    {                                                                                             \
        _Bool same = *at == expected;                                                             \
        *at = same ? value : *at;                                                                 \
        return same;                                                                              \
    }                                                                                             \
    NAMED(type, __atomic_exchange, size, type *at, type value, int order)                         \
    {                                                                                             \
        (void)order;                                                                              \
        type was = *at;                                                                           \
        *at = value;                                                                              \
        return was;                                                                               \
    }                                                                                             \
    NAMED(type, __sync_lock_test_and_set, size, type *at, type value)                             \
    {                                                                                             \
        type was = *at;                                                                           \
        *at = value;                                                                              \
        return was;                                                                               \
    }                                                                                             \
    FETCHES(type, size, add, was + value)                                                         \
    FETCHES(type, size, sub, was - value)                                                         \
    FETCHES(type, size, and, was &value)                                                          \
    FETCHES(type, size, or, was | value)                                                          \
    FETCHES(type, size, xor, was ^ value)                                                         \
    FETCHES(type, size, nand, ~(was & value))

ATOMIC(uint8_t, 1)
ATOMIC(uint16_t, 2)
ATOMIC(uint32_t, 4)
ATOMIC(uint64_t, 8)

// Those of any size.
#define ANY(type, name, ...)                                                                      \
    type any_##name(__VA_ARGS__) __asm__(#name);                                                  \
    type any_##name(__VA_ARGS__)

ANY(void, __atomic_load, size_t size, const void *at, void *into, int order)
{
    (void)order;
    memcpy(into, at, size);
}
ANY(void, __atomic_store, size_t size, void *at, const void *value, int order)
{
    (void)order;
    memcpy(at, value, size);
}
ANY(void, __atomic_exchange, size_t size, void *at, const void *value, void *was, int order)
{
    (void)order;
    memcpy(was, at, size);
    memcpy(at, value, size);
}
ANY(_Bool, __atomic_compare_exchange, size_t size, void *at, void *expected, const void *value,
    int order, int otherwise)
{
    (void)order, (void)otherwise;
    _Bool same = memcmp(at, expected, size) == 0;
    memcpy(same ? at : expected, same ? value : at, size);
    return same;
}
ANY(_Bool, __atomic_is_lock_free, size_t size, const void *at)
{
    (void)size, (void)at;
    return 1;
}
ANY(void, __sync_synchronize, void)
{
}

// Bytes and texts, a word at a time: picolibc's take them one by one. A word that is aligned lies in one
// page, so what is read of it before or behind the bytes that were asked for is mapped, and has no part
// in the answer.
#pragma GCC push_options
#pragma GCC optimize("O2", "no-tree-loop-distribute-patterns")
typedef uint32_t __attribute__((may_alias)) word;
#define WORD sizeof(word)
#define SAME_PLACE(a, b) ((((uintptr_t)(a) ^ (uintptr_t)(b)) & (WORD - 1)) == 0)
#define IS_ALIGNED(a) (((uintptr_t)(a) & (WORD - 1)) == 0)
// Whether a byte of a word is 0; where all are from 1 to 128 the first look tells it
static inline int has_zero(word w)
{
    word may = (w - 0x01010101) & 0x80808080;
    return __builtin_expect(may != 0, 0) && (may & ~w) != 0;
}

// Copies words to an aligned address from one that is not: each is made of two aligned ones.
static const char *copy_shifted(word *to, const char *from, size_t words)
{
    unsigned shift = 8 * ((uintptr_t)from & (WORD - 1));
    const word *next = (const word *)(from - shift / 8);
    for (word low = *next++; words > 0; words--) {
        word high = *next++;
        *to++ = low >> shift | high << (32 - shift);
        low = high;
    }
    return (const char *)(next - 1) + shift / 8;
}

// Copies forward, which is right where the bytes lie apart, and where they go to lower addresses.
static void copy(char *to, const char *from, size_t size)
{
    if (size >= 4 * WORD) {
        for (; !IS_ALIGNED(to); size--) {
            *to++ = *from++;
        }
        if (!IS_ALIGNED(from)) {
            from = copy_shifted((word *)to, from, size / WORD);
            to += size & -WORD;
            size &= WORD - 1;
        }
        for (; size >= 8 * WORD; size -= 8 * WORD, to += 8 * WORD, from += 8 * WORD) {
            const word *some = (const word *)from;
            word a = some[0], b = some[1], c = some[2], d = some[3];
            word e = some[4], f = some[5], g = some[6], h = some[7];
            word *there = (word *)to;
            there[0] = a, there[1] = b, there[2] = c, there[3] = d;
            there[4] = e, there[5] = f, there[6] = g, there[7] = h;
        }
        for (; size >= WORD; size -= WORD, to += WORD, from += WORD) {
            *(word *)to = *(const word *)from;
        }
    }
    for (; size > 0; size--) {
        *to++ = *from++;
    }
}

void *memcpy(void *restrict into, const void *restrict bytes, size_t size)
{
    copy(into, bytes, size);
    return into;
}

void *memmove(void *into, const void *bytes, size_t size)
{
    char *to = into;
    const char *from = bytes;
    if ((uintptr_t)to - (uintptr_t)from >= size) {
        copy(to, from, size);
        return into;
    }
    to += size, from += size;
    if (SAME_PLACE(to, from)) {
        for (; size > 0 && !IS_ALIGNED(to); size--) {
            *--to = *--from;
        }
        for (; size >= WORD; size -= WORD) {
            to -= WORD, from -= WORD;
            *(word *)to = *(const word *)from;
        }
    }
    for (; size > 0; size--) {
        *--to = *--from;
    }
    return into;
}

void *memset(void *into, int byte, size_t size)
{
    unsigned char *to = into;
    word all = (unsigned char)byte * 0x01010101u;
    if (size >= 4 * WORD) {
        for (; !IS_ALIGNED(to); size--) {
            *to++ = byte;
        }
        for (; size >= 8 * WORD; size -= 8 * WORD, to += 8 * WORD) {
            word *there = (word *)to;
            there[0] = all, there[1] = all, there[2] = all, there[3] = all;
            there[4] = all, there[5] = all, there[6] = all, there[7] = all;
        }
        for (; size >= WORD; size -= WORD, to += WORD) {
            *(word *)to = all;
        }
    }
    for (; size > 0; size--) {
        *to++ = byte;
    }
    return into;
}

int memcmp(const void *one, const void *other, size_t size)
{
    const unsigned char *a = one, *b = other;
    if (size >= 4 * WORD) {
        for (; !IS_ALIGNED(a) && *a == *b; size--) {
            a++, b++;
        }
        if (IS_ALIGNED(a) && IS_ALIGNED(b)) {
            for (; size >= 4 * WORD; a += 4 * WORD, b += 4 * WORD, size -= 4 * WORD) {
                const word *some = (const word *)a, *others = (const word *)b;
                if (some[0] != others[0] || some[1] != others[1] || some[2] != others[2] ||
                    some[3] != others[3]) {
                    break;
                }
            }
        } else if (IS_ALIGNED(a)) {
            unsigned shift = 8 * ((uintptr_t)b & (WORD - 1));
            const word *next = (const word *)(b - shift / 8);
            for (word low = *next++; size >= WORD; a += WORD, b += WORD, size -= WORD) {
                word high = *next++;
                if (*(const word *)a != (low >> shift | high << (32 - shift))) {
                    break;
                }
                low = high;
            }
        }
    }
    for (; size > 0; size--, a++, b++) {
        if (*a != *b) {
            return *a - *b;
        }
    }
    return 0;
}

size_t strlen(const char *text)
{
    const char *at = text;
    for (; !IS_ALIGNED(at); at++) {
        if (!*at) {
            return at - text;
        }
    }
    while (!has_zero(*(const word *)at)) {
        at += WORD;
    }
    while (*at) {
        at++;
    }
    return at - text;
}

int strcmp(const char *one, const char *other)
{
    const unsigned char *a = (const unsigned char *)one, *b = (const unsigned char *)other;
    for (; !IS_ALIGNED(a) && *a && *a == *b; a++, b++) {
    }
    if (IS_ALIGNED(a) && IS_ALIGNED(b)) {
        for (word w = *(const word *)a; w == *(const word *)b; w = *(const word *)a) {
            if (has_zero(w)) {
                return 0;
            }
            a += WORD, b += WORD;
        }
    } else if (IS_ALIGNED(a)) {
        // the next word of the other text is read where it does not end before
        unsigned shift = 8 * ((uintptr_t)b & (WORD - 1));
        const word *next = (const word *)(b - shift / 8);
        word low = *next++, high = low | ((1u << shift) - 1);
        while (!has_zero(high)) {
            high = *next++;
            word own = *(const word *)a;
            if (own != (low >> shift | high << (32 - shift))) {
                break;
            }
            if (has_zero(own)) {
                return 0;
            }
            low = high;
            a += WORD, b += WORD;
        }
    }
    for (; *a && *a == *b; a++, b++) {
    }
    return *a - *b;
}
// The heap. Its memory is chunks one after the other, each of a multiple of 16 bytes. The word before what
// the program has of a chunk is its size with two flags. One that is free stands in the list of its class,
// and has its size in its last word too. Behind the last chunk is memory that none has, up to the break.
#define CHUNK 16u
#define LARGEST (PTRDIFF_MAX - 0x20000)
enum { IS_USED = 1, BEFORE_IS_USED = 2 };
struct chunk {
    struct chunk *next;
    struct chunk **from;
};
static struct chunk *classes[128];
static word class_is_there[4];
// Where the first chunk begins, where the next one begins behind the last one, the break, and from where
// on no chunk ever was
static char *heap_first, *heap_top, *heap_end, *heap_fresh;
static size_t heap_all;

static word *head_of(void *at) { return (word *)at - 1; }
static size_t size_of(void *at) { return *head_of(at) & -CHUNK; }
static void *behind(void *at) { return (char *)at + size_of(at); }

// 31 classes of one size each, and from 512 bytes on four for each power of 2
static unsigned class_of(size_t size)
{
    unsigned power = 31 - __builtin_clz(size);
    return power < 9 ? size / CHUNK : 32 + 4 * (power - 9) + (size >> (power - 2) & 3);
}

static void add_free(void *at, size_t size)
{
    struct chunk *chunk = at, **list = &classes[class_of(size)];
    *head_of(at) = size | (*head_of(at) & BEFORE_IS_USED);
    *head_of((char *)at + size) &= ~BEFORE_IS_USED;
    head_of((char *)at + size)[-1] = size;
    *chunk = (struct chunk){.next = *list, .from = list};
    if (*list) {
        (*list)->from = &chunk->next;
    }
    *list = chunk;
    class_is_there[class_of(size) / 32] |= 1u << class_of(size) % 32;
}

static void remove_free(struct chunk *chunk)
{
    unsigned class = class_of(size_of(chunk));
    *chunk->from = chunk->next;
    if (chunk->next) {
        chunk->next->from = chunk->from;
    }
    if (!classes[class]) {
        class_is_there[class / 32] &= ~(1u << class % 32);
    }
}

// A free chunk of a size: one of its class that is large enough, or the first of a larger class
static struct chunk *found_free(size_t size)
{
    unsigned class = class_of(size);
    struct chunk *chunk = classes[class];
    while (chunk && size_of(chunk) < size) {
        chunk = chunk->next;
    }
    for (unsigned at = ++class / 32; !chunk && at < 4; at++, class = 0) {
        word there = class_is_there[at] & -(1u << class % 32);
        chunk = there ? classes[32 * at + __builtin_ctz(there)] : NULL;
    }
    return chunk;
}

// Has a size behind the last chunk. Where the break moved meanwhile, the heap goes on from there, behind
// a word that is used.
static int has_top(size_t size)
{
    if (heap_end && (size_t)(heap_end - heap_top) >= size) {
        return 1;
    }
    size_t wanted = (size + 2 * CHUNK + 0xffff) & -0x10000u;
    char *more = sbrk(wanted);
    if (more == (void *)-1) {
        wanted = size + 2 * CHUNK;
        more = sbrk(wanted);
    }
    if (more == (void *)-1) {
        return 0;
    }
    if (more != heap_end) {
        if (heap_end) {
            *head_of(heap_top) |= IS_USED | CHUNK;
        }
        heap_top = heap_fresh = (char *)(((uintptr_t)more + CHUNK + WORD - 1) & -CHUNK);
        *head_of(heap_top) = BEFORE_IS_USED;
        heap_first = heap_first ? heap_first : heap_top;
    }
    heap_end = more + wanted;
    heap_all += wanted;
    return 1;
}

// Gives back a chunk, and makes one with those beside it that are free. gcc takes for granted that free
// reads nothing before what it is given, so this has another name, as take has.
static void give_back(void *at)
{
    size_t size = size_of(at);
    char *next = behind(at);
    if (!(*head_of(at) & BEFORE_IS_USED)) {
        size_t before = head_of(at)[-1];
        at = (char *)at - before;
        size += before;
        remove_free(at);
    }
    if (next == heap_top) {
        heap_top = at;
        *head_of(at) &= BEFORE_IS_USED;
        return;
    }
    if (!(*head_of(next) & IS_USED)) {
        size += size_of(next);
        remove_free((struct chunk *)next);
    }
    add_free(at, size);
}

// Gives back what a chunk that is used has behind a size
static void shorten(void *at, size_t size)
{
    size_t rest = size_of(at) - size;
    if (rest >= CHUNK) {
        *head_of(at) -= rest;
        *head_of(behind(at)) = rest | IS_USED | BEFORE_IS_USED;
        give_back(behind(at));
    }
}

static size_t with_head(size_t size) { return (size + WORD + CHUNK - 1) & -CHUNK; }

static void *take(size_t size)
{
    if (size > LARGEST) {
        return none(ENOMEM);
    }
    size = with_head(size);
    struct chunk *chunk = found_free(size);
    if (chunk) {
        remove_free(chunk);
        *head_of(chunk) |= IS_USED;
        *head_of(behind(chunk)) |= BEFORE_IS_USED;
        shorten(chunk, size);
        return chunk;
    }
    if (!has_top(size + CHUNK)) {
        return none(ENOMEM);
    }
    chunk = (struct chunk *)heap_top;
    *head_of(chunk) = size | IS_USED | (*head_of(chunk) & BEFORE_IS_USED);
    heap_top += size;
    heap_fresh = heap_top > heap_fresh ? heap_top : heap_fresh;
    *head_of(heap_top) = BEFORE_IS_USED;
    return chunk;
}

void *malloc(size_t size) { return take(size); }
// What is below the heap is a standard stream that was closed.
void free(void *at)
{
    if (heap_first && (char *)at >= heap_first) {
        give_back(at);
    }
}

// What was never used is 0.
void *calloc(size_t count, size_t size)
{
    char *fresh = heap_fresh;
    if (__builtin_mul_overflow(count, size, &size)) {
        return none(ENOMEM);
    }
    char *at = take(size);
    if (at && at < fresh) {
        memset(at, 0, size < (size_t)(fresh - at) ? size : (size_t)(fresh - at));
    }
    return at;
}

void *realloc(void *at, size_t size)
{
    if (!at || size > LARGEST) {
        return at ? none(ENOMEM) : take(size);
    }
    size_t wanted = with_head(size), have = size_of(at);
    char *next = behind(at);
    if (have < wanted && next == heap_top && has_top(wanted - have + CHUNK) && next == heap_top) {
        *head_of(at) += wanted - have;
        heap_top += wanted - have;
        heap_fresh = heap_top > heap_fresh ? heap_top : heap_fresh;
        *head_of(heap_top) = BEFORE_IS_USED;
        return at;
    }
    if (have < wanted && next != heap_top && !(*head_of(next) & IS_USED) &&
        have + size_of(next) >= wanted) {
        remove_free((struct chunk *)next);
        *head_of(at) += size_of(next);
        *head_of(behind(at)) |= BEFORE_IS_USED;
    }
    if (size_of(at) >= wanted) {
        shorten(at, wanted);
        return at;
    }
    void *other = take(size);
    if (other) {
        memcpy(other, at, have - WORD);
        give_back(at);
    }
    return other;
}

void *memalign(size_t alignment, size_t size)
{
    if (size > LARGEST - alignment) {
        return none(ENOMEM);
    }
    char *at = take(alignment <= CHUNK ? size : size + alignment);
    char *to = (char *)(((uintptr_t)at + alignment - 1) & -alignment);
    if (at && alignment > CHUNK) {
        if (to != at) {
            size_t before = to - at;
            *head_of(to) = (size_of(at) - before) | IS_USED | BEFORE_IS_USED;
            *head_of(at) -= size_of(at) - before;
            give_back(at);
        }
        shorten(to, with_head(size));
    }
    return at ? alignment > CHUNK ? to : at : NULL;
}

void *aligned_alloc(size_t alignment, size_t size) { return memalign(alignment, size); }
int posix_memalign(void **into, size_t alignment, size_t size)
{
    if (alignment < sizeof *into || (alignment & (alignment - 1)) != 0) {
        return EINVAL;
    }
    int before = errno;
    void *at = memalign(alignment, size);
    errno = before;
    if (at) {
        *into = at;
    }
    return at ? 0 : ENOMEM;
}
void *valloc(size_t size) { return memalign(4096, size); }
void *pvalloc(size_t size) { return memalign(4096, (size + 4095) & -4096); }
size_t malloc_usable_size(void *at) { return at ? size_of(at) - WORD : 0; }
void cfree(void *at) { free(at); }
int mallopt(int parameter, int value)
{
    (void)parameter, (void)value;
    return 0;
}
struct mallinfo mallinfo(void)
{
    return (struct mallinfo){.arena = heap_all, .keepcost = heap_end - heap_top};
}

#pragma GCC pop_options

// Of C++, by the names of its ABI: where memory is wanting a program without exceptions ends.
static void *new(size_t size)
{
    void *room = malloc(size ? size : 1);
    return room ? room : (abort(), NULL);
}
#define CPP(type, name, ...) type name(__VA_ARGS__); type name(__VA_ARGS__)
CPP(void *, _Znwj, size_t size) { return new(size); }
CPP(void *, _Znaj, size_t size) { return new(size); }
CPP(void *, _ZnwjRKSt9nothrow_t, size_t size, const void *tag) { return (void)tag, malloc(size); }
CPP(void *, _ZnajRKSt9nothrow_t, size_t size, const void *tag) { return (void)tag, malloc(size); }
CPP(void, _ZdlPv, void *room) { free(room); }
CPP(void, _ZdaPv, void *room) { free(room); }
CPP(void, _ZdlPvj, void *room, size_t size) { (void)size, free(room); }
CPP(void, _ZdaPvj, void *room, size_t size) { (void)size, free(room); }
const char _ZSt7nothrow;
CPP(void, __cxa_pure_virtual, void) { abort(); }
CPP(void, __cxa_deleted_virtual, void) { abort(); }
// Of the 64 bits of a guard the first byte says whether its variable is made.
CPP(int, __cxa_guard_acquire, char *guard) { return !*guard; }
CPP(void, __cxa_guard_release, char *guard) { *guard = 1; }
CPP(void, __cxa_guard_abort, char *guard) { (void)guard; }
