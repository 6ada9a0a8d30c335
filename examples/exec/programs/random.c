// Throws dice with random bytes, asks for them in ways that are refused, and says what the machine is. With
// an argument that begins with "b" it prints bytes.
#include <errno.h>
#include <stdio.h>
#include <string.h>
#include <sys/random.h>
#include <sys/utsname.h>
#include <unistd.h>

static unsigned char bytes[1000];

static void ask(size_t size, unsigned flags)
{
    long given = getrandom(bytes, size, flags);
    printf("%zu bytes, flags %u: %ld %d\n", size, flags, given, given < 0 ? errno == EINVAL : 0);
}

// A number below 6 that each value has the same chance to be.
static int die(void)
{
    unsigned char byte;
    do {
        if (getentropy(&byte, 1) != 0) {
            return -1;
        }
    } while (byte >= 252);
    return byte % 6;
}

int main(int count, char **words)
{
    if (count > 1 && words[1][0] == 'b') {
        unsigned long long number;
        return getentropy(&number, sizeof number) != 0 || printf("%016llx\n", number) < 0;
    }
    ask(0, 0);
    ask(5, GRND_NONBLOCK);
    ask(256, GRND_RANDOM);
    ask(256, GRND_INSECURE);
    ask(1, GRND_RANDOM | GRND_INSECURE);
    ask(1, 8);
    int thrown[6] = {0}, missing = 0;
    for (int i = 0; i < 1000; i++) {
        thrown[die()]++;
    }
    for (int i = 0; i < 6; i++) {
        missing += thrown[i] < 100;
    }
    printf("of 1000 throws each number came %s\n", missing ? "not often enough" : "100 times or more");
    unsigned char other[256];
    printf("%d %d\n", getentropy(bytes, 256), getentropy(other, 256));
    printf("%s\n", memcmp(bytes, other, 256) == 0 ? "twice the same" : "each time others");
    printf("%d %d\n", getentropy(bytes, 257), errno == EIO);
    printf("%ld %d\n", (long)getrandom((void *)4, 1, 0), errno == EFAULT);
    struct utsname names;
    printf("%d\n", uname(&names));
    printf("%s %s\n", names.sysname, names.machine);
    return 0;
}
