// Words of the command line, read as options and as numbers, and a name that the environment has not.
#include <errno.h>
#include <limits.h>
#include <stdio.h>
#include <stdlib.h>
#include <string.h>

static void number(const char *text)
{
    char *end;
    errno = 0;
    long long value = strtoll(text, &end, 0);
    if (end == text) {
        printf("\"%s\" is no number\n", text);
    } else {
        printf("\"%s\" is %lld, %s\n", text, value, errno == ERANGE ? "too large" : *end ? "with more behind" : "whole");
    }
}

extern char **environ;

int main(int count, char *words[], char *names[])
{
    for (int i = 1; i < count; i++) {
        const char *space = strchr(words[i], ' ');
        printf("%d: %zu bytes, %s\n", i, strlen(words[i]), space ? space + 1 : "no space");
        number(words[i]);
    }
    printf("%d %d\n", words[count] == NULL, names == environ);
    static const char *const texts[] = {"0", "-17", "0x7fffffff", "077", "12 apples", "9223372036854775808", "-x"};
    for (size_t i = 0; i < sizeof texts / sizeof *texts; i++) {
        number(texts[i]);
    }
    const char *home = getenv("RRS_TEST_NAME");
    printf("%s\n", home ? home : "not in the environment");
    printf("%d\n", setenv("RRS_TEST_NAME", "value", 1));
    home = getenv("RRS_TEST_NAME");
    printf("%s\n", home ? home : "not in the environment");
    fprintf(stderr, "%d arguments\n", count - 1);
    return count;
}
