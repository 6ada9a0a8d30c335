// What a program does with files: compared with what it does under qemu-riscv32.
#include <errno.h>
#include <fcntl.h>
#include <stdio.h>
#include <string.h>
#include <sys/stat.h>
#include <sys/time.h>
#include <unistd.h>
// A descriptor of the same file: its position is the same, and it stays open after the other.
static void copies(void)
{
    char bytes[8] = "";
    int one = open("copied", O_RDWR | O_CREAT | O_APPEND, 0600);
    printf("write %d", (int)write(one, "0123456789", 10));
    int two = dup(one);
    printf(" at %d", (int)lseek(two, 0, SEEK_CUR));
    printf(" %d", (int)lseek(two, 2, SEEK_SET));
    printf(" read %d %.3s", (int)read(one, bytes, 3), bytes);
    printf(" %d %.3s", (int)read(two, bytes, 3), bytes);
    printf(" flags %d", fcntl(one, F_GETFL) == fcntl(two, F_GETFL));
    int other = open("copied", O_RDONLY);
    printf(" own %d %.3s", (int)read(other, bytes, 3), bytes);
    // the lowest number is taken
    close(one);
    printf(" lowest %d", dup(two) == one);
    printf(" close %d %d", close(two), close(two));
    printf(" %d read %d %.2s", errno, (int)read(one, bytes, 2), bytes);
    // in the place of another, which is closed, and of one that is not open
    printf(" dup2 %d", dup2(one, other) == other);
    printf(" at %d", (int)lseek(other, 0, SEEK_CUR));
    printf(" %d", dup2(one, 40));
    printf(" %d", dup2(one, one) == one);
    printf(" close %d %d", close(one), close(other));
    printf(" read %d %.1s", (int)read(40, bytes, 1), bytes);
    printf(" close %d\n", close(40));
    errno = 0;
    printf("dup %d", dup(40));
    printf(" %d", errno);
    errno = 0;
    printf(" dup2 %d", dup2(40, 41));
    printf(" %d", errno);
    one = open("copied", O_RDONLY);
    errno = 0;
    printf(" %d", dup2(one, 100000));
    printf(" %d", errno);
    // 100 files one after another, each with a copy
    int fine = 0;
    for (int i = 0; i < 100; i++) {
        int file = open("copied", O_RDONLY);
        int copy = dup(file);
        fine += close(file) == 0 && read(copy, bytes, 1) == 1 && close(copy) == 0;
    }
    printf(" %d\n", fine);
    close(one);
    unlink("copied");
}

#define EMPTY_PATH 0x1000
#define HERE (-100)

// A call of Linux by its number: its answer, which is minus the number of an error.
static long call(long number, long first, const void *second, long third, unsigned fourth,
                 const void *fifth)
{
    register long a0 __asm__("a0") = first;
    register const void *a1 __asm__("a1") = second;
    register long a2 __asm__("a2") = third;
    register unsigned a3 __asm__("a3") = fourth;
    register const void *a4 __asm__("a4") = fifth;
    register long a7 __asm__("a7") = number;
    __asm__ volatile("ecall" : "+r"(a0) : "r"(a1), "r"(a2), "r"(a3), "r"(a4), "r"(a7) : "memory");
    return a0;
}

static long statx(int beside, const char *path, long flags, unsigned mask, void *status)
{
    return call(291, beside, path, flags, mask, status);
}

// fstatat64, whose structure has 26 words.
static long stat64(int beside, const char *path, long flags, unsigned *status)
{
    return call(79, beside, path, (long)status, flags, NULL);
}

// An address that is not mapped.
static void *const nowhere = (void *)0x7fff0000;

struct piece {
    const void *bytes;
    long size;
};

static long writev(int fd, const struct piece *pieces, long count)
{
    return call(66, fd, pieces, count, 0, NULL);
}

// The pieces of a vector, which one call writes one after another: up to the first that is not
// there, and none where the vector is wrong or the file is not open to be written.
static void vectors(void)
{
    struct piece pieces[] = {{"one", 3}, {"", 0}, {" two", 4}, {" three", 6}};
    char bytes[64] = "";
    int fd = open("pieces", O_RDWR | O_CREAT | O_TRUNC, 0600);
    printf("writev %ld", writev(fd, pieces, 4));
    printf(" at %d", (int)lseek(fd, 0, SEEK_CUR));
    printf(" %ld %ld", writev(fd, pieces, 1), writev(fd, pieces, 0));
    pieces[1].bytes = nowhere;
    pieces[1].size = 5;
    printf(" unmapped %ld", writev(fd, pieces, 3));
    printf(" %ld", writev(fd, pieces + 1, 2));
    pieces[1].size = -1;
    printf(" negative %ld", writev(fd, pieces, 2));
    printf(" vector %ld", writev(fd, nowhere, 2));
    printf(" many %ld", writev(fd, pieces, 1025));
    printf(" read %d %s\n", (int)pread(fd, bytes, sizeof bytes - 1, 0), bytes);
    int appends = open("pieces", O_WRONLY | O_APPEND);
    printf("appends %ld", writev(appends, pieces + 2, 2));
    printf(" at %d", (int)lseek(appends, 0, SEEK_CUR));
    int reads = open("pieces", O_RDONLY);
    printf(" to read %ld", writev(reads, pieces, 1));
    printf(" ioctl %ld", call(29, reads, (void *)0x5401, (long)bytes, 0, NULL));
    printf(" %ld", call(29, fd, (void *)0x5413, (long)bytes, 0, NULL));
    printf(" %d", isatty(fd));
    printf(" %d", errno);
    close(fd);
    close(appends);
    close(reads);
    printf(" closed %ld", writev(fd, pieces, 1));
    printf(" %ld\n", call(29, fd, (void *)0x5401, (long)bytes, 0, NULL));
    unlink("pieces");
}

// struct statx, by words: but for the attributes and the time when a file was made, it is what
// fstatat64 tells.
static void extended(void)
{
    const char *paths[] = {"", "nothing", "keep/x", "./keep", "dir", "dir/in", "keep/"};
    const long flags[] = {0, 0x100, 0x1000, 0x2000, 0x6000, 0x8000, 0x4900};
    int fd = open("dir/in", O_RDONLY);
    for (int i = 0; i < (int)(sizeof paths / sizeof *paths); i++) {
        for (int k = 0; k < (int)(sizeof flags / sizeof *flags); k++) {
            unsigned words[64] = {0};
            struct stat st;
            // an empty path is that of the descriptor, where it may be
            int beside = i == 0 && k == 2 ? fd : -100;
            if (i == 0 && k != 2) {
                continue;
            }
            long answer = statx(beside, paths[i], flags[k], 0x7ff, words);
            printf("statx %s %lx: %ld", paths[i], flags[k], answer);
            if (answer == 0 && stat(i == 0 ? "dir/in" : paths[i], &st) == 0) {
                printf(" %x %d %d %d %d", words[0] & 0x7ff, words[1] == (unsigned)st.st_blksize,
                       words[4] == st.st_nlink, (unsigned short)words[5] == st.st_uid,
                       (unsigned short)words[6] == st.st_gid);
                printf(" %o %d %u %d", words[7], (unsigned short)words[8] == st.st_ino, words[10],
                       words[12] == (unsigned)st.st_blocks);
                printf(" %d %d", words[16] == (unsigned)st.st_atime,
                       words[24] == (unsigned)st.st_ctime);
                printf(" %d %u", words[28] == (unsigned)st.st_mtime, words[30] / 1000 % 1000);
                printf(" device %u %u %u %u", words[32], words[33], words[34], words[35]);
            }
            printf("\n");
        }
    }
    unsigned words[64];
    printf("statx mask %ld", statx(-100, "keep", 0, 0x80000000, words));
    printf(" nowhere %ld", statx(-100, "keep", 0, 0x7ff, nowhere));
    printf(" closed %ld\n", statx(50, "", 0x1000, 0x7ff, words));
    close(fd);
}

// Bytes that are read and can't be put anywhere: they are the next still.
static void unread(void)
{
    char bytes[8] = "";
    int fd = open("unread", O_RDWR | O_CREAT | O_TRUNC, 0600);
    printf("unread %d", (int)write(fd, "0123456789", 10));
    printf(" %d", (int)lseek(fd, 2, SEEK_SET));
    void *const places[] = {nowhere, (void *)unread, (void *)-4};
    for (int i = 0; i < 3; i++) {
        printf(" %ld", call(63, fd, places[i], 4, 0, NULL));
        printf(" %ld", call(67, fd, places[i], 4, 5, NULL));
        printf(" at %d", (int)lseek(fd, 0, SEEK_CUR));
    }
    printf(" read %d %.3s", (int)read(fd, bytes, 3), bytes);
    printf(" at %d", (int)lseek(fd, 0, SEEK_CUR));
    printf(" end %ld", call(63, fd, nowhere, 0, 0, NULL));
    printf(" %d\n", (int)lseek(fd, 0, SEEK_END));
    close(fd);
    unlink("unread");
}

// The status beside a descriptor, of a file or of a standard stream: by an absolute path, for which
// the descriptor is not looked at, by a relative one, and by an empty one; with all flags.
static void beside(void)
{
    struct stat here;
    unsigned words[64];
    char inner[300] = "";
    if (getcwd(inner, sizeof inner - 10) == NULL) {
        return;
    }
    strcat(inner, "/dir/in");
    int fd = open("dir/in", O_RDONLY);
    const char *paths[] = {"/", inner, "/nothing of this name", "dir/in", "", "..", nowhere};
    const int descriptors[] = {0, 1, 2, fd, 50, HERE};
    for (int i = 0; i < (int)(sizeof descriptors / sizeof *descriptors); i++) {
        // the file itself, by its empty path
        int n = descriptors[i] == HERE ? 5 : 7;
        printf("beside %d:", i);
        for (int k = 0; k < n; k++) {
            printf(" %ld", stat64(descriptors[i], paths[k], 0, words));
            printf(" %ld", statx(descriptors[i], paths[k], 0, 0x7ff, words));
        }
        printf(" empty %ld", stat64(descriptors[i], "", EMPTY_PATH, words));
        printf(" %ld\n", statx(descriptors[i], "", EMPTY_PATH, 0x7ff, words));
    }
    printf("here %ld %d", stat64(HERE, "", EMPTY_PATH, words), stat(".", &here));
    printf(" %d %o", (unsigned short)words[2] == here.st_ino, words[4] & 0xf000);
    printf(" %ld", statx(HERE, "", EMPTY_PATH, 0x7ff, words));
    printf(" %d %o\n", (unsigned short)words[8] == here.st_ino, words[7] & 0xf000);
    for (int bit = 0; bit < 32; bit++) {
        printf("%ld ", stat64(HERE, "dir/in", 1l << bit, words));
        printf("%ld ", stat64(fd, "/", EMPTY_PATH | 1l << bit, words));
        printf("%ld ", stat64(1, "/", EMPTY_PATH | 1l << bit, words));
    }
    printf("%ld\n", stat64(HERE, "dir/in", 0x6000, words));
    close(fd);
}

// The standard streams, when they are closed. No file is opened then, since Linux gives it the
// lowest number.
static void streams(void)
{
    struct stat st;
    unsigned words[26];
    char bytes[4];
    for (int fd = 0; fd <= 2; fd += 2) {
        printf("stream %d: open %d", fd, fcntl(fd, F_GETFD) >= 0);
        printf(" close %d", close(fd));
        errno = 0;
        printf(" again %d %d", close(fd), errno);
        errno = 0;
        printf(" %d %d", (int)read(fd, bytes, 1), errno);
        errno = 0;
        printf(" %d %d", (int)write(fd, "a", 1), errno);
        errno = 0;
        printf(" %d %d", fstat(fd, &st), errno);
        errno = 0;
        printf(" %d %d", (int)lseek(fd, 0, SEEK_CUR), errno);
        errno = 0;
        printf(" %d %d", isatty(fd), errno);
        errno = 0;
        printf(" %d %d", fcntl(fd, F_GETFD), errno);
        printf(" status %ld", stat64(fd, "", EMPTY_PATH, words));
        printf(" %ld", stat64(fd, "/", 0, words));
        printf(" %ld\n", stat64(fd, "dir", 0, words));
    }
    printf("the output is open %d\n", fcntl(1, F_GETFD));
}

// The standard streams have descriptors as files have: a copy of one, a file in the place of one, and
// the number of one that was closed. Only the output is open.
static void copied_streams(void)
{
    char bytes[64] = "";
    fflush(stdout);
    int file = open("output", O_RDWR | O_CREAT | O_TRUNC, 0600);
    int kept = dup(1);
    int moved = dup2(file, 1);
    printf("to the file");
    fflush(stdout);
    int past = write(kept, "past it\n", 8);
    int back = dup2(kept, 1);
    printf("file %d kept %d %d %d %d", file, kept, moved, past, back);
    printf(" close %d %d", close(kept), close(kept));
    lseek(file, 0, SEEK_SET);
    printf(" %d", (int)read(file, bytes, sizeof bytes - 1));
    printf(" %s", bytes);
    // the lowest number is taken
    printf(" close %d", close(0));
    printf(" lowest %d", open("output", O_RDONLY));
    printf(" read %d", (int)read(0, bytes, 2));
    printf(" %.2s", bytes);
    // from a number on
    printf(" copy %d %d", kept = fcntl(1, F_DUPFD, 30), moved = fcntl(file, F_DUPFD, 30));
    fflush(stdout);
    printf(" write %d %d", (int)write(kept, "\n", 1), (int)write(moved, "!", 1));
    printf(" close %d %d", close(kept), close(moved));
    errno = 0;
    printf(" %d", fcntl(file, F_DUPFD, 100000));
    printf(" %d\n", errno);
    close(file);
    unlink("output");
}

int main(int argc, char **argv)
{
    FILE *f = fopen("out.txt", "w");
    if (!f) {
        perror("fopen");
        return 1;
    }
    for (int i = 0; i < 5000; i++)
        fprintf(f, "line %d\n", i);
    fclose(f);
    f = fopen("out.txt", "r");
    char line[100];
    int n = 0;
    long sum = 0;
    while (fgets(line, 100, f)) {
        n++;
        sum += strlen(line);
    }
    printf("%d lines %ld bytes\n", n, sum);
    fseek(f, 100, SEEK_SET);
    fgets(line, 100, f);
    printf("at 100: %s", line);
    fseek(f, -7, SEEK_END);
    fgets(line, 100, f);
    printf("end: %s", line);
    printf("tell %ld\n", ftell(f));
    struct stat st;
    printf("fstat %d", fstat(fileno(f), &st));
    printf(" size %ld mode %o\n", (long)st.st_size, st.st_mode);
    fclose(f);
    f = fopen("out.txt", "a");
    fputs("more\n", f);
    fclose(f);
    printf("stat %d size", stat("out.txt", &st));
    printf(" %ld\n", (long)st.st_size);
    const char *paths[] = {"",           "nothing",  "nothing/x", "out.txt/x", "./out.txt",
                           ".//out.txt", "out.txt/", "dir/in",    "dir//in",   "dir"};
    for (int i = 0; i < (int)(sizeof paths / sizeof *paths); i++) {
        errno = 0;
        int r = stat(paths[i], &st);
        printf("stat %s: %d errno %d\n", paths[i], r, errno);
        errno = 0;
        r = lstat(paths[i], &st);
        printf("lstat %s: %d errno %d mode %o\n", paths[i], r, errno, r == 0 ? st.st_mode : 0);
        errno = 0;
        int fd = open(paths[i], O_RDWR);
        printf("open %s: %s errno %d\n", paths[i], fd < 0 ? "no" : "yes", errno);
        if (fd >= 0)
            close(fd);
    }
    errno = 0;
    printf("excl %d %d\n", open("out.txt", O_WRONLY | O_CREAT | O_EXCL, 0644), errno);
    errno = 0;
    printf("close 50 %d %d\n", close(50), errno);
    errno = 0;
    printf("read wronly ");
    {
        int fd = open("out.txt", O_WRONLY);
        char c;
        int r = read(fd, &c, 1);
        printf("%d %d\n", r, errno);
        close(fd);
    }
    errno = 0;
    printf("read 77: %d", (int)read(77, line, 1));
    printf(" %d\n", errno);
    printf("unlink %d\n", unlink("out.txt"));
    errno = 0;
    printf("again %d", unlink("out.txt"));
    printf(" %d\n", errno);
    errno = 0;
    printf("unlink dir %d", unlink("dir"));
    printf(" %d\n", errno);
    // a folder, its names, and lengths
    printf("mkdir %d", mkdir("made", 0750));
    printf(" again %d", mkdir("made", 0750));
    printf(" %d", errno);
    printf(" below nothing %d", mkdir("nothing/made", 0750));
    printf(" %d\n", errno);
    printf("stat %d mode %o\n", stat("made", &st), st.st_mode);
    f = fopen("made/one", "w+");
    fputs("0123456789", f);
    fflush(f);
    printf("fsync %d fdatasync %d", fsync(fileno(f)), fdatasync(fileno(f)));
    printf(" ftruncate %d", ftruncate(fileno(f), 4));
    printf(" %d", fstat(fileno(f), &st));
    printf(" size %ld", (long)st.st_size);
    printf(" ftruncate %d", ftruncate(fileno(f), 20));
    printf(" %d", fstat(fileno(f), &st));
    printf(" size %ld\n", (long)st.st_size);
    printf("negative %d", ftruncate(fileno(f), -1));
    printf(" %d\n", errno);
    printf("fchmod %d", fchmod(fileno(f), 0640));
    printf(" %d", fstat(fileno(f), &st));
    printf(" mode %o\n", st.st_mode);
    char some[8] = "";
    printf("pwrite %d", (int)pwrite(fileno(f), "ab", 2, 6));
    printf(" pread %d %.3s", (int)pread(fileno(f), some, 3, 1), some);
    printf(" %d %.2s", (int)pread(fileno(f), some, 2, 6), some);
    printf(" after the end %d", (int)pread(fileno(f), some, 2, 100));
    printf(" at %ld", (long)lseek(fileno(f), 0, SEEK_CUR));
    printf(" before the file %d", (int)pread(fileno(f), some, 2, -1));
    printf(" %d\n", errno);
    printf("flags %d %d\n", fcntl(fileno(f), F_SETFD, 0), fcntl(fileno(f), F_GETFD));
    fclose(f);
    errno = 0;
    printf("flags of 50: %d", fcntl(50, F_GETFD));
    printf(" %d\n", errno);
    errno = 0;
    printf("rmdir %d", rmdir("made"));
    printf(" %d", errno);
    printf(" of a file %d", rmdir("made/one"));
    printf(" %d\n", errno);
    printf("rename %d", rename("made/one", "made/two"));
    printf(" again %d", rename("made/one", "made/two"));
    printf(" %d", errno);
    printf(" to a folder %d", rename("made/two", "dir"));
    printf(" %d\n", errno);
    const char *reached[] = {"made/two", "made/one", "made", "made/two/x", ""};
    for (int i = 0; i < (int)(sizeof reached / sizeof *reached); i++) {
        for (int asked = 0; asked < 8; asked++) {
            errno = 0;
            int r = access(reached[i], asked);
            printf("access %s %d: %d errno %d\n", reached[i], asked, r, errno);
        }
    }
    printf("rename %d rmdir", rename("made", "moved"));
    printf(" %d", unlink("moved/two"));
    printf(" %d\n", rmdir("moved"));
    char here[300];
    printf("getcwd %d", getcwd(here, 1) == NULL);
    printf(" %d", errno);
    printf(" %d\n", getcwd(here, sizeof here) == here && here[0] == '/');
    // how a file is open, its owner, its times, and locks, which are granted
    int how = open("keep", O_RDWR | O_APPEND | O_CREAT, 0600);
    printf("open %x", fcntl(how, F_GETFL) & (O_ACCMODE | O_APPEND));
    printf(" set %d %d", fcntl(how, F_SETFL, O_APPEND | O_NONBLOCK), fcntl(how, 999, 0));
    printf(" %x", fcntl(how, F_GETFL) & (O_ACCMODE | O_APPEND));
    printf(" output %x", fcntl(1, F_GETFL) & O_ACCMODE);
    printf(" input %d %d\n", fcntl(0, F_GETFD), fcntl(0, F_SETFD, 0));
    fstat(how, &st);
    printf("fchown %d", fchown(how, st.st_uid, st.st_gid));
    printf(" %d %d", fchown(how, -1, -1), fchown(50, -1, -1));
    printf(" %d\n", errno);
    struct flock lock = {.l_type = F_WRLCK, .l_whence = SEEK_SET};
    printf("lock %d", fcntl(how, F_SETLK, &lock));
    printf(" %d", fcntl(how, F_GETLK, &lock));
    printf(" %d", lock.l_type == F_UNLCK);
    printf(" %d", fcntl(50, F_SETLK, &lock));
    printf(" %d\n", errno);
    close(how);
    printf("again %x\n", fcntl(how = open("keep", O_RDONLY), F_GETFL) & (O_ACCMODE | O_APPEND));
    close(how);
    const char *timed[] = {"keep", "dir", "nothing", "keep/x", "", "dir/in"};
    for (int i = 0; i < (int)(sizeof timed / sizeof *timed); i++) {
        struct timeval times[2] = {{1000000000 + i, 250000}, {1234567890 + i, 999999}};
        errno = 0;
        printf("utimes %s: %d", timed[i], utimes(timed[i], times));
        printf(" errno %d", errno);
        printf(" %d", stat(timed[i], &st));
        printf(" %ld\n", i == 2 || i == 3 || i == 4 ? 0L : (long)st.st_mtime);
    }
    struct timeval wrong[2] = {{0, 0}, {0, 1000000}};
    printf("utimes %d", utimes("keep", wrong));
    printf(" %d\n", errno);
    copies();
    extended();
    vectors();
    beside();
    unread();
    int fds[20], k;
    for (k = 0; k < 20; k++) {
        fds[k] = open("keep", O_RDWR | O_CREAT, 0600);
    }
    printf("first %d\n", fds[0]);
    close(fds[3]);
    printf("again %d %d\n", fds[3], open("keep", O_RDONLY));
    streams();
    copied_streams();
    return 0;
}
