/* Refuses one allocation of a program: preloaded, its malloc and realloc answer NULL at the call
 * whose number is in REFUSE, and work as ever before and after it. At that call it makes the file
 * whose name is in REFUSED, so that whoever runs the program knows that it came so far. */
#include <fcntl.h>
#include <stddef.h>
#include <stdlib.h>
#include <unistd.h>

void *__libc_malloc(size_t size);
void *__libc_realloc(void *block, size_t size);

static int is_refused(void)
{
    static unsigned long calls;
    const char *number = getenv("REFUSE");
    const char *mark = getenv("REFUSED");

    calls++;
    if (number == NULL || mark == NULL || strtoul(number, NULL, 10) != calls)
        return 0;
    close(open(mark, O_WRONLY | O_CREAT, 0600));
    return 1;
}

void *malloc(size_t size)
{
    return is_refused() ? NULL : __libc_malloc(size);
}

void *realloc(void *block, size_t size)
{
    return is_refused() ? NULL : __libc_realloc(block, size);
}
