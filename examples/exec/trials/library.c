// What the functions of library.c answer, and which error they give: a line for each.
#include <dirent.h>
#include <errno.h>
#include <fcntl.h>
#include <grp.h>
#include <poll.h>
#include <pwd.h>
#include <features.h>
#include <semaphore.h>
#include <setjmp.h>
#include <signal.h>
#include <stdio.h>
#include <stdio_ext.h>
#include <stdlib.h>
#include <string.h>
#include <sys/ioctl.h>
#include <sys/mman.h>
#include <sys/random.h>
#include <sys/resource.h>
#include <sys/socket.h>
#include <sys/stat.h>
#include <sys/time.h>
#include <sys/utsname.h>
#include <sys/wait.h>
#include <termios.h>
#include <time.h>
#include <unistd.h>
#include <utime.h>

static const char *const names[] = {
    [0] = "no error", [ENOENT] = "ENOENT", [EIO] = "EIO", [EBADF] = "EBADF", [ECHILD] = "ECHILD",
    [EAGAIN] = "EAGAIN", [EINVAL] = "EINVAL", [ENOTTY] = "ENOTTY", [ERANGE] = "ERANGE",
    [ENOSYS] = "ENOSYS", [ENAMETOOLONG] = "ENAMETOOLONG", [EDEADLK] = "EDEADLK",
};

static void says(const char *what, long answer)
{
    const char *name = errno <= ENAMETOOLONG ? names[errno] : NULL;
    printf("%s: %ld, %s\n", what, answer, name ? name : "another error");
}

// A call, with its answer; and whether a call gives an address.
#define SAYS(call) (errno = 0, says(#call, (long)(call)))
#define GIVES(call) (errno = 0, says(#call, (call) != NULL))

static char room[4096];

static void paths(void)
{
    struct stat status;
    SAYS(access("none", F_OK));
    SAYS(chdir("none"));
    SAYS(chmod("none", 0600));
    SAYS(chown("none", 0, 0));
    SAYS(link("none", "none"));
    SAYS(lstat("none", &status));
    SAYS(mkdir("none/none", 0700));
    SAYS(readlink("none", room, sizeof room));
    SAYS(rename("none", "none"));
    SAYS(rmdir("none"));
    SAYS(symlink("none", "none/none"));
    SAYS(truncate("none", 0));
    SAYS(utime("none", NULL));
    SAYS(utimes("none", NULL));
    GIVES(getcwd(room, sizeof room));
    GIVES(getcwd(room, 1));
    GIVES(opendir("none"));
    memset(room, 'a', 256);
    room[256] = '\0';
    SAYS(access(room, F_OK));
}

static void descriptors(void)
{
    struct termios terminal = {.c_cflag = CS8};
    int ends[2];
    SAYS(isatty(0));
    SAYS(isatty(9));
    SAYS(tcgetattr(0, &terminal));
    SAYS(tcsetattr(0, TCSANOW, &terminal));
    SAYS(tcsetattr(0, 3, &terminal));
    SAYS(cfsetospeed(&terminal, B115200));
    SAYS(cfsetispeed(&terminal, 9600));
    SAYS(cfgetispeed(&terminal) == B115200 && (terminal.c_cflag & CSIZE) == CS8);
    SAYS(tcdrain(9));
    SAYS(tcflush(9, TCIFLUSH));
    SAYS(ioctl(9, FIONREAD, room));
    SAYS(dup(9));
    SAYS(dup2(9, 8));
    SAYS(fchmod(9, 0600));
    SAYS(fchown(9, 0, 0));
    SAYS(fcntl(1, F_GETFD));
    SAYS(fcntl(9, F_GETFD));
    SAYS(fcntl(9, F_GETFL));
    SAYS(fcntl(9, F_SETFL, 0));
    SAYS(fcntl(9, F_SETLK, NULL));
    SAYS(fcntl(1, F_GETOWN));
    SAYS(fdatasync(9));
    SAYS(fsync(9));
    SAYS(ftruncate(9, 0));
    SAYS(poll(NULL, 0, 0));
    SAYS(pipe(ends));
    SAYS(fcntl(ends[0], F_SETFL, fcntl(ends[0], F_GETFL) | O_NONBLOCK));
    SAYS(fcntl(ends[1], F_SETFL, fcntl(ends[1], F_GETFL) | O_NONBLOCK));
    SAYS(fcntl(ends[0], F_GETFL) & (O_ACCMODE | O_NONBLOCK));
    SAYS(fcntl(ends[1], F_GETFL) & (O_ACCMODE | O_NONBLOCK));
    SAYS(read(ends[0], room, 5));
    SAYS(write(ends[1], "two words", 9));
    SAYS(write(ends[0], "two words", 9));
    SAYS(read(ends[1], room, 5));
    SAYS(read(ends[0], room, 5));
    SAYS(memcmp(room, "two w", 5));
    int whole = 0;
    while (write(ends[1], room, sizeof room) == sizeof room) {
        whole++;
    }
    SAYS(whole >= 14);
    SAYS(write(ends[1], room, sizeof room));
    while (read(ends[0], room, sizeof room) == sizeof room) {
    }
    SAYS(read(ends[0], room, 5));
    SAYS(write(ends[1], "end", 3));
    SAYS(close(ends[1]));
    SAYS(close(ends[1]));
    SAYS(read(ends[0], room, sizeof room));
    SAYS(read(ends[0], room, sizeof room));
    SAYS(close(ends[0]));
    SAYS(fcntl(ends[0], F_GETFL));
}

static void users_and_processes(void)
{
    char *words[] = {"none", NULL};
    SAYS(getuid() == geteuid());
    SAYS(getgid() == getegid());
    GIVES(getpwuid(getuid()));
    SAYS(getpwuid(getuid())->pw_uid == getuid());
    SAYS(strcmp(getpwuid(getuid())->pw_name, getpwnam("user")->pw_name));
    GIVES(getpwuid(getuid() + 1));
    GIVES(getpwnam("none"));
    GIVES(getgrgid(getgid()));
    GIVES(getgrnam("none"));
    GIVES(getlogin());
    SAYS(fork());
    SAYS(execv("none", words));
    SAYS(execvp("none", words));
    SAYS(execve("none", words, words));
    SAYS(execl("none", "none", NULL));
    SAYS(execlp("none", "none", NULL));
    GIVES(popen("none", "r"));
    SAYS(pclose(stdin));
    SAYS(wait(NULL));
    SAYS(waitpid(1, NULL, 0));
    sem_t semaphore;
    SAYS(sem_init(&semaphore, 0, 1));
    SAYS(sem_wait(&semaphore));
    SAYS(sem_wait(&semaphore));
    SAYS(sem_trywait(&semaphore));
    SAYS(sem_post(&semaphore));
    SAYS(sem_trywait(&semaphore));
    SAYS(sem_destroy(&semaphore));
    SAYS(sizeof(struct sockaddr_storage) - sizeof(struct sockaddr));
}

static int caught;

static void catches(int number)
{
    caught = number;
}

static void signals(void)
{
    struct sigaction action = {.sa_handler = catches}, before;
    sigset_t set = 0;
    SAYS(sigaction(SIGUSR1, &action, NULL));
    SAYS(sigaction(SIGUSR1, NULL, &before));
    SAYS(before.sa_handler == catches);
    SAYS(raise(SIGUSR1));
    SAYS(caught == SIGUSR1);
    SAYS(sigprocmask(SIG_BLOCK, NULL, &set));
    SAYS(alarm(0));
}

static void time_and_machine(void)
{
    struct timespec time = {.tv_nsec = 1};
    struct utsname machine;
    struct rusage usage;
    SAYS(clock_gettime(CLOCK_REALTIME, &time));
    SAYS(clock_gettime(CLOCK_MONOTONIC, &time));
    SAYS(clock_gettime(CLOCK_PROCESS_CPUTIME_ID, &time));
    SAYS(clock_gettime((clockid_t)9, &time));
    SAYS(clock_getres(CLOCK_MONOTONIC, &time));
    time = (struct timespec){.tv_nsec = 1};
    SAYS(nanosleep(&time, NULL));
    SAYS(usleep(1));
    SAYS(getrusage(RUSAGE_SELF, &usage));
    SAYS(getrusage(9, &usage));
    SAYS(getrandom(room, 9, 0));
    SAYS(getrandom(room, 9, 8));
    SAYS(getentropy(room, 256));
    SAYS(getentropy(room, 257));
    SAYS(uname(&machine));
    SAYS(gethostname(room, sizeof room));
    SAYS(sysconf(_SC_PAGESIZE));
    SAYS(sysconf(_SC_NPROCESSORS_ONLN));
    SAYS(sysconf(999));
    SAYS(pathconf("/", _PC_PATH_MAX));
    SAYS(pathconf("/", 999));
    SAYS(mmap(NULL, 4096, PROT_READ, MAP_PRIVATE | MAP_ANONYMOUS, -1, 0) == MAP_FAILED);
    SAYS(munmap(NULL, 4096));
}

// What the standard asks of these macros.
_Static_assert(FILENAME_MAX >= 256 && FOPEN_MAX >= 8 && TMP_MAX >= 25 && L_tmpnam > 1, "stdio.h");
_Static_assert(CLOCKS_PER_SEC == 1000000, "POSIX");

// A program may have a function of its own in the place of one of the library.
int geteuid_calls;
uid_t geteuid(void)
{
    geteuid_calls++;
    return getuid();
}

static void streams(void)
{
    SAYS(__fpending(stderr) + __fwriting(stdout) + __flbf(stdout));
    SAYS(__freading(stdin) + 2 * __fwriting(stdin) + 4 * __freadable(stdin) + 8 * __fwritable(stdin));
    SAYS(getchar());
    SAYS(__freadahead(stdin) > 0);
    SAYS(ungetc('a', stdin));
    __fpurge(stdin);
    SAYS(__freadahead(stdin));
    SAYS(__fbufsize(stdin) == BUFSIZ);
    __fseterr(stdin);
    SAYS(ferror(stdin) != 0);
    SAYS(strncmp(getprogname(), "library", 7));
    SAYS(getdtablesize());
}

static int jumps(void)
{
    jmp_buf here;
    if (_setjmp(here) != 0) {
        return 1;
    }
    _longjmp(here, 1);
}

int main(void)
{
    paths();
    descriptors();
    users_and_processes();
    signals();
    time_and_machine();
    streams();
    SAYS(geteuid_calls);
    SAYS(jumps());
    flockfile(stdout);
    putc_unlocked('!', stdout);
    putchar_unlocked('\n');
    funlockfile(stdout);
    return 0;
}
