// Makes the calls that its input asks for, a line for each: a letter, a place of an open file, a
// blank, and a path in hexadecimal.
#include <dirent.h>
#include <errno.h>
#include <fcntl.h>
#include <stdio.h>
#include <string.h>
#include <sys/stat.h>
#include <unistd.h>
#include <utime.h>

static char line[20000], path[10000], bytes[64];
static int places[8] = {-1, -1, -1, -1, -1, -1, -1, -1};

static int value(int digit)
{
    return digit <= '9' ? digit - '0' : digit - 'a' + 10;
}

// Opens a file at a place, where no other is open then.
static int opens(int *place, int flags, int mode)
{
    close(*place);
    return *place = open(path, flags, mode);
}

// The names in a folder, but for one without a number, which readers leave out: how many bytes they
// have, and 1000 times their kinds.
static long long names(void)
{
    DIR *folder = opendir(path);
    long long size = 0;
    struct dirent *entry;
    if (!folder) {
        return -1;
    }
    while ((entry = readdir(folder))) {
        size += entry->d_ino ? strlen(entry->d_name) + 1000 * entry->d_type : 0;
    }
    closedir(folder);
    return size;
}

static long long does(int call, int *place)
{
    struct stat status = {0};
    struct utimbuf times = {1, 2};
    long long answer;
    switch (call) {
    case 'r': return opens(place, O_RDONLY, 0);
    case 'w': return opens(place, O_RDWR | O_CREAT | O_TRUNC, 0644);
    case 'a': return opens(place, O_WRONLY | O_APPEND, 0);
    case 'x': return opens(place, O_RDWR | O_CREAT | O_EXCL, 0600);
    case 'u': return unlink(path);
    case 's': return stat(path, &status) == 0 ? (long long)status.st_mode : -1;
    case 'l': return lstat(path, &status) == 0 ? (long long)status.st_mode : -1;
    case 'm': return mkdir(path, 0755);
    case 'd': return rmdir(path);
    case 'g': return names();
    case 'n': return rename(path, "f0");
    case 'o': return rename("f1", path);
    case 'c': return access(path, R_OK | W_OK);
    case 't': return utime(path, &times);
    case 'k': return symlink(path, "made");
    case 'h': return link(path, "made");
    case 'i': return readlink(path, bytes, sizeof bytes);
    case 'C': answer = close(*place); *place = -1; return answer;
    case 'R': return read(*place, bytes, sizeof bytes - 1);
    case 'W': return write(*place, "MARK", 4);
    case 'S': return lseek(*place, 2, SEEK_SET);
    case 'E': return lseek(*place, 0, SEEK_END);
    case 'T': return ftruncate(*place, 5);
    case 'F': return fstat(*place, &status) == 0 ? (long long)status.st_size : -1;
    case 'D': answer = dup(*place); return answer < 0 ? answer : close(answer);
    case 'G': return fcntl(*place, F_GETFL);
    }
    return -2;
}

int main(void)
{
    while (fgets(line, sizeof line, stdin)) {
        size_t length = 0;
        for (const char *at = line + 3; at[0] > '\n' && at[1] > '\n'; at += 2) {
            path[length++] = value(at[0]) * 16 + value(at[1]);
        }
        path[length] = 0;
        errno = 0;
        long long answer = does(line[0], &places[line[1] & 7]);
        printf("%c %lld %d", line[0], answer, errno);
        if (line[0] == 'R' && answer > 0) {
            printf(" %.*s", (int)answer, bytes);
        }
        printf("\n");
    }
}
