// What a program finds in folders: compared with what it finds under qemu-riscv32. The entries are
// printed in the order of their names, since Linux has another.
#include <dirent.h>
#include <errno.h>
#include <fcntl.h>
#include <stdio.h>
#include <stdlib.h>
#include <string.h>
#include <sys/stat.h>
#include <unistd.h>

static int in_order(const void *a, const void *b)
{
    return strcmp(*(char *const *)a, *(char *const *)b);
}

// The names in a folder that is open, from where it stands on: each with its kind, and whether it
// has the number that stat tells.
static void names(const char *path, DIR *folder)
{
    static char *lines[2000];
    int count = 0;
    struct dirent *entry;
    errno = 0;
    while ((entry = readdir(folder))) {
        char whole[600], line[600];
        struct stat status;
        snprintf(whole, sizeof whole, "%s/%s", path, entry->d_name);
        // a path with a part .. is refused below a folder
        int has_number = strcmp(entry->d_name, "..") == 0 ||
                         (lstat(whole, &status) == 0 && status.st_ino == entry->d_ino);
        snprintf(line, sizeof line, "%s %d %d", entry->d_name, entry->d_type, has_number);
        lines[count++] = strdup(line);
    }
    printf("%s: %d names, errno %d\n", path, count, errno);
    qsort(lines, count, sizeof *lines, in_order);
    for (int i = 0; i < count; i++) {
        if (count < 20 || i % 100 == 0) {
            printf("  %s\n", lines[i]);
        }
        free(lines[i]);
    }
}

static void make(const char *path)
{
    int fd = open(path, O_WRONLY | O_CREAT, 0600);
    printf("make %s: %d\n", strlen(path) < 60 ? path : "a long one", fd >= 0 ? close(fd) : -1);
}

static long getdents64(int fd, void *to, size_t size)
{
    register long a0 __asm__("a0") = fd;
    register void *a1 __asm__("a1") = to;
    register size_t a2 __asm__("a2") = size;
    register long a7 __asm__("a7") = 61;
    __asm__ volatile("ecall" : "+r"(a0) : "r"(a1), "r"(a2), "r"(a7) : "memory");
    return a0;
}

// The entries of a folder with two, of which each has 24 bytes, where there is room for so many.
static void raw(void)
{
    static const size_t rooms[] = {8, 23, 24, 47, 48, 49, 4096};
    static unsigned char bytes[4096];
    for (size_t i = 0; i < sizeof rooms / sizeof *rooms; i++) {
        int fd = open("empty", O_RDONLY);
        printf("room %zu:", rooms[i]);
        for (int k = 0; k < 3; k++) {
            memset(bytes, 0xff, sizeof bytes);
            long size = getdents64(fd, bytes, rooms[i]);
            printf(" %ld", size);
            for (int at = 0; at < size; at += bytes[at + 16]) {
                // after the name the bytes of Linux are what they were
                int after = at + 20 + strlen((char *)bytes + at + 19);
                printf(" (%d %d %d %s %d)", bytes[at + 16], bytes[at + 17], bytes[at + 18],
                       bytes + at + 19, after <= at + bytes[at + 16]);
            }
            printf(size > 0 ? " then %d" : "", bytes[size > 0 ? size : 0]);
        }
        lseek(fd, 0, SEEK_SET);
        printf(" nowhere %ld\n", getdents64(fd, (void *)0x7fff0000, 4096));
        close(fd);
    }
    int fd = open("few/a", O_RDONLY);
    printf("of a file %ld", getdents64(fd, bytes, 4096));
    close(fd);
    printf(" of none %ld\n", getdents64(fd, bytes, 4096));
}

// The text of a link, as many bytes as have room, and what has none. The link is there before.
static void links(void)
{
    static const char *const paths[] = {"link",      "./link",  "dir",       "dir/", "dir/in",
                                        "dir/in/no", "nothing", "nothing/x", ""};
    static const int sizes[] = {400, 6, 5, 1, 0};
    for (size_t i = 0; i < sizeof paths / sizeof *paths; i++) {
        for (size_t k = 0; k < sizeof sizes / sizeof *sizes; k++) {
            char bytes[400];
            memset(bytes, '-', sizeof bytes);
            errno = 0;
            int size = readlink(paths[i], bytes, sizes[k]);
            printf("readlink %s %d: %d errno %d %.8s\n", paths[i], sizes[k], size, errno, bytes);
        }
    }
    struct stat status;
    errno = 0;
    printf("lstat %d", lstat("link", &status));
    printf(" mode %o\n", (unsigned)status.st_mode);
    errno = 0;
    printf("nowhere %d", (int)readlink("link", (void *)0x7fff0000, 400));
    printf(" %d\n", errno);
    DIR *folder = opendir(".");
    names(".", folder);
    closedir(folder);
}

int main(void)
{
    links();
    mkdir("many", 0700);
    mkdir("empty", 0700);
    mkdir("few", 0700);
    mkdir("few/below", 0700);
    make("few/a");
    make("few/with a blank");
    make("few/\xc3\xa9\xe2\x82\xac");
    char path[300] = "few/";
    memset(path + 4, 'n', 255);
    make(path);
    for (int i = 0; i < 1000; i++) {
        snprintf(path, sizeof path, "many/%d", i);
        close(open(path, O_WRONLY | O_CREAT, 0600));
    }
    const char *paths[] = {"few", "./few/", "empty", "few/below", "many", "few//below/."};
    for (size_t i = 0; i < sizeof paths / sizeof *paths; i++) {
        DIR *folder = opendir(paths[i]);
        if (!folder) {
            printf("opendir %s: errno %d\n", paths[i], errno);
            continue;
        }
        names(paths[i], folder);
        rewinddir(folder);
        names(paths[i], folder);
        printf("closedir %d\n", closedir(folder));
    }
    // what changes is seen when it is read anew
    DIR *folder = opendir("few");
    make("few/later");
    rewinddir(folder);
    names("few", folder);
    unlink("few/later");
    rewinddir(folder);
    names("few", folder);
    closedir(folder);
    // how a folder is opened, and what is refused of it
    const int flags[] = {O_RDONLY,           O_RDONLY | O_DIRECTORY, O_WRONLY,
                         O_RDWR,             O_RDONLY | O_CREAT,     O_WRONLY | O_TRUNC,
                         O_WRONLY | O_CREAT, O_RDWR | O_DIRECTORY};
    const char *opened[] = {"few", "few/", "few/a", "few/a/", "nothing", "nothing/", "few/a/b"};
    for (size_t i = 0; i < sizeof opened / sizeof *opened; i++) {
        for (size_t k = 0; k < sizeof flags / sizeof *flags; k++) {
            // a file is made where it may be written alone
            if (flags[k] & O_CREAT && i > (k == 4 ? 1 : 2)) {
                continue;
            }
            errno = 0;
            int fd = open(opened[i], flags[k], 0600);
            printf("open %s %zu: %d errno %d", opened[i], k, fd < 0 ? -1 : 0, errno);
            char bytes[400];
            errno = 0;
            int size = fd < 0 ? 0 : read(fd, bytes, sizeof bytes);
            printf(" read %d %d", size, errno);
            errno = 0;
            size = fd < 0 ? 0 : pread(fd, bytes, sizeof bytes, 1);
            printf(" %d %d", size, errno);
            errno = 0;
            size = fd < 0 ? 0 : ftruncate(fd, 0);
            printf(" cut %d %d\n", size, errno);
            close(fd);
        }
    }
    raw();
    errno = 0;
    printf("of nothing %d %d", opendir("nothing") != NULL, errno);
    errno = 0;
    printf(" %d %d\n", opendir("few/a") != NULL, errno);
    folder = opendir("empty");
    struct stat status;
    printf("fstat %d", fstat(dirfd(folder), &status));
    printf(" mode %o", (unsigned)status.st_mode);
    printf(" fsync %d", fsync(dirfd(folder)));
    printf(" fchmod %d", fchmod(dirfd(folder), 0750));
    printf(" %d", fstat(dirfd(folder), &status));
    printf(" mode %o rmdir %d", (unsigned)status.st_mode, rmdir("empty"));
    rewinddir(folder);
    errno = 0;
    printf(" gone %d", readdir(folder) != NULL);
    printf(" %d\n", closedir(folder));
    return 0;
}
