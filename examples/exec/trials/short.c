/* Preloaded, a read or a write of a standard stream, or of a duplicate of one, takes at most three
 * bytes. Where one takes fewer than were asked for, it makes the file that SHORTENED names. */
#define _GNU_SOURCE
#include <fcntl.h>
#include <stdlib.h>
#include <sys/stat.h>
#include <sys/syscall.h>
#include <unistd.h>

/* Whether a descriptor leads to what a standard one leads to. */
static int is_standard(int fd)
{
    struct stat own, standard;
    for (int of = 0; of < 3; of++) {
        if (fstat(fd, &own) == 0 && fstat(of, &standard) == 0 && own.st_dev == standard.st_dev
            && own.st_ino == standard.st_ino) {
            return 1;
        }
    }
    return 0;
}

static size_t at_most(int fd, size_t count)
{
    if (count <= 3 || !is_standard(fd)) {
        return count;
    }
    close(open(getenv("SHORTENED"), O_WRONLY | O_CREAT, 0600));
    return 3;
}

ssize_t read(int fd, void *bytes, size_t count)
{
    return syscall(SYS_read, fd, bytes, at_most(fd, count));
}

ssize_t write(int fd, const void *bytes, size_t count)
{
    return syscall(SYS_write, fd, bytes, at_most(fd, count));
}
