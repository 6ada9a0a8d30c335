// Prints to standard error, and asks for what has no system call: files, positions and signals; and
// for what a descriptor that is not open can't do.
#include <errno.h>
#include <fcntl.h>
#include <signal.h>
#include <stdio.h>
#include <string.h>
#include <sys/stat.h>
#include <unistd.h>

static void say(const char *name, int answer)
{
    printf("%s: %d, %s\n", name, answer, errno != 0 ? strerror(errno) : "no error");
}

// What a call answers, and the error that it sets.
#define SAY(name, call) (errno = 0, say(name, call))

int main(void)
{
    fprintf(stderr, "an error, %d of %d", 1, 2);
    fputs("\n", stderr);
    SAY("fopen", fopen("count.c", "r") != NULL);
    perror("fopen");
    SAY("remove", remove("no such file"));
    SAY("unlink", unlink("no such file"));
    SAY("open", open("count.c", 0));
    SAY("lseek", lseek(1, 0, SEEK_SET));
    struct stat status;
    char byte = 1;
    SAY("stat", stat("count.c", &status));
    SAY("fstat", fstat(1, &status));
    SAY("write", write(5, "", 1));
    SAY("write of nothing", write(1, "", 0));
    SAY("read", read(5, &byte, 1));
    SAY("read of nothing", read(0, &byte, 0));
    SAY("close", close(5));
    SAY("kill of another process", kill(getpid() + 1, SIGTERM));
    SAY("kill of a group", kill(0, SIGTERM));
    SAY("kill by no signal", kill(getpid(), 0));
    SAY("getpid", getpid());
    SAY("fgets of no byte", fgets(&byte, 1, stdin) == &byte && byte == '\0');
    SAY("read at the first byte", getchar());
    SAY("close of what is open", close(0));
    return 0;
}
