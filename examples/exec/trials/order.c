// Says what is called before main and after it, and whether main's arguments end as they must.
#include <stdio.h>
#include <stdlib.h>

static int constructed;

__attribute__((constructor)) static void construct(void)
{
    constructed++;
    printf("a constructor\n");
}

__attribute__((constructor(200))) static void construct_first(void)
{
    constructed++;
    printf("a constructor of a higher priority\n");
}

static void prepare(void)
{
    constructed++;
    printf("a function before the constructors\n");
}

__attribute__((section(".preinit_array"), used)) static void (*const before)(void) = prepare;

static void at_exit(void)
{
    printf("a function for exit\n");
}

__attribute__((destructor)) static void destruct(void)
{
    printf("a destructor\n");
}

__attribute__((destructor(200))) static void destruct_last(void)
{
    printf("a destructor of a higher priority");
}

int main(int count, char **words)
{
    int ends = count == 0 ? words == NULL : words[count] == NULL;
    printf("main, after %d constructors: %s\n", constructed, ends ? "as it must be" : "other arguments");
    return atexit(at_exit);
}
