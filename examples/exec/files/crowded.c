// What is listed of folders with many files, of which there may be more than there is room for.
#include <dirent.h>
#include <errno.h>
#include <fcntl.h>
#include <stdio.h>
#include <stdlib.h>
#include <sys/stat.h>
#include <unistd.h>

// Makes so many files in a folder, of names that begin so, or removes them.
static void fill(char kind, int count, int is_made)
{
    char name[32];
    for (int i = 0; i < count; i++) {
        snprintf(name, sizeof name, "many/%c%05d", kind, i);
        if (!is_made) {
            unlink(name);
        } else {
            close(open(name, O_WRONLY | O_CREAT, 0600));
        }
    }
}

// How many entries a folder has from its position on, and the error after them.
static void tell(const char *what, DIR *folder)
{
    int count = 0;
    errno = 0;
    while (readdir(folder)) {
        count++;
    }
    printf("%s: %d, error %d\n", what, count, errno);
}

int main(int count, char **words)
{
    int more = count > 1 ? atoi(words[1]) : 0;
    DIR *few, *many, *others[6];
    mkdir("few", 0700);
    mkdir("many", 0700);
    fill('a', 100, 1);
    few = opendir("few");
    many = opendir("many");
    tell("few", few);
    tell("many", many);
    fill('b', more, 1);
    rewinddir(many);
    tell("more", many);
    // what was listed before
    seekdir(many, 2);
    tell("after two", many);
    rewinddir(few);
    tell("few again", few);
    for (int i = 0; i < 6; i++) {
        others[i] = opendir("many");
        tell("another", others[i]);
    }
    closedir(others[0]);
    rewinddir(others[5]);
    tell("where one is closed", others[5]);
    for (int i = 1; i < 6; i++) {
        closedir(others[i]);
    }
    fill('b', more, 0);
    rewinddir(many);
    tell("fewer", many);
    closedir(many);
    closedir(few);
    fill('a', 100, 0);
    rmdir("many");
    rmdir("few");
}
