// The functions of bytes and texts, and those of the heap, beside plain loops: at each place in a word, of
// each length up to 70, over parts of one array, and up to the last byte that there is. With an argument
// it calls one of them for a megabyte, a kilobyte at a time, and does nothing beside.
#include <malloc.h>
#include <stdint.h>
#include <stdio.h>
#include <stdlib.h>
#include <string.h>
#include <unistd.h>

enum { SIZE = 70, PLACES = 8, ROOM = 160, PARTS = 500 };

static int tried, wrong;

static void agree(int is_right)
{
    tried++;
    wrong += !is_right;
}

static int sign(int number)
{
    return (number > 0) - (number < 0);
}

static uint32_t next(void)
{
    static uint32_t state = 1;
    state ^= state << 13;
    state ^= state >> 17;
    return state ^= state << 5;
}

// What a copy of bytes in one array, from one place to another, leaves
static void copied(unsigned char *room, int to, int from, int size, int by_memmove)
{
    static unsigned char before[ROOM];
    for (int i = 0; i < ROOM; i++) {
        before[i] = room[i] = next();
    }
    void *answer = by_memmove ? memmove(room + to, room + from, size)
                              : memcpy(room + to, room + from, size);
    int same = answer == room + to;
    for (int i = 0; i < ROOM; i++) {
        same &= room[i] == before[i >= to && i < to + size ? i - to + from : i];
    }
    agree(same);
}

static void set(unsigned char *room, int at, int size)
{
    memset(room, 1, ROOM);
    int same = memset(room + at, 0x1fe, size) == room + at;
    for (int i = 0; i < ROOM; i++) {
        same &= room[i] == (i >= at && i < at + size ? 0xfe : 1);
    }
    agree(same);
}

// Two texts of a length, which differ at a place, or not where it is their length
static void compared(char *room, int one, int other, int size, int at)
{
    char *a = room + one, *b = room + ROOM / 2 + other;
    for (int i = 0; i <= size; i++) {
        a[i] = b[i] = i < size ? 1 + next() % 255 : 0;
    }
    if (at < size) {
        b[at] ^= a[at] == (char)0x80 ? 0x7f : 0x80;
    }
    int order = at < size ? sign((unsigned char)a[at] - (unsigned char)b[at]) : 0;
    agree(sign(memcmp(a, b, size)) == order);
    agree(sign(strcmp(a, b)) == order);
    agree(strlen(a) == (size_t)size);
    b[at] = 0; // and where one ends before the other
    agree(sign(strcmp(a, b)) == (at < size) && sign(strcmp(b, a)) == -(at < size));
    agree(strlen(b) == (size_t)at);
}

static void bytes(void)
{
    static unsigned char room[ROOM] __attribute__((aligned(8)));
    for (int size = 0; size <= SIZE; size++) {
        for (int one = 0; one < PLACES; one++) {
            set(room, one, size);
            for (int other = 0; other < PLACES; other++) {
                copied(room, one, ROOM / 2 + other, size, 0);
                copied(room, one, other, size, 1);
                copied(room, one + size / 2, other, size, 1);
                copied(room, one, other + size / 2, size, 1);
                if (other < 4 && one < 4) {
                    compared((char *)room, one, other, size, next() % (size + 1));
                }
            }
        }
    }
}

// The end of the memory, where a word behind the last one is not to be read
static void at_the_end(void)
{
    char *start = sbrk(0);
    sbrk((4096 - ((uintptr_t)start & 4095)) % 4096 + 4096);
    char *end = sbrk(0), copy[16];
    for (int size = 1; size <= 16; size++) {
        char *at = end - size;
        memset(at, 'a', size - 1);
        at[size - 1] = 0;
        for (int from = 0; from < 4 && from < size; from++) {
            agree(strlen(at + from) == (size_t)(size - 1 - from));
            agree(strcmp(at + from, memcpy(copy, at + from, size - from)) == 0);
            agree(strcmp(copy, at + from) == 0 && memcmp(copy, at + from, size - from) == 0);
        }
    }
}

// Parts of the heap that come and go: each keeps its bytes, lies by itself, and is cleared where it has to
static void heap(void)
{
    static unsigned char *parts[PARTS], marks[PARTS];
    static size_t sizes[PARTS];
    for (int step = 0; step < 20000; step++) {
        int i = next() % PARTS, kind = next() % 8, same = 1;
        size_t size = next() % (kind ? 200 : 20000), kept = size < sizes[i] ? size : sizes[i];
        size_t alignment = 16u << next() % 8, cleared = 0;
        switch (next() % 5) {
        case 0:
            free(parts[i]);
            parts[i] = malloc(size);
            kept = 0;
            break;
        case 1:
            free(parts[i]);
            parts[i] = calloc(size, 1);
            kept = 0;
            cleared = size;
            break;
        case 2:
            free(parts[i]);
            parts[i] = memalign(alignment, size);
            same = (uintptr_t)parts[i] % alignment == 0;
            kept = 0;
            break;
        default:
            parts[i] = realloc(parts[i], size);
        }
        for (size_t at = 0; at < kept; at++) {
            same &= parts[i][at] == marks[i];
        }
        for (size_t at = 0; at < cleared; at++) {
            same &= parts[i][at] == 0;
        }
        agree(same && parts[i] && (uintptr_t)parts[i] % 16 == 0 &&
              malloc_usable_size(parts[i]) >= size);
        memset(parts[i], marks[i] = step, sizes[i] = size);
        if (step % 5000 == 4999) {
            sbrk(100); // the heap goes on elsewhere
        }
    }
    agree(mallinfo().arena < 4000000);
    volatile size_t most = -1;
    agree(!malloc(most) && !calloc(65536, most / 65535) && !realloc(parts[0], most));
    void *at;
    agree(posix_memalign(&at, 24, 1) != 0 && posix_memalign(&at, 64, 1) == 0);
}

// A megabyte, in parts of a kilobyte, by a function
static int megabyte(const char *function, int place)
{
    static char from[1032] __attribute__((aligned(8))), to[1032] __attribute__((aligned(8)));
    static const char *const functions[] = {"memcpy", "memmove", "memset", "memcmp", "strlen", "strcmp",
                                            "malloc"};
    int of = 0, sum = 0;
    while (strcmp(functions[of], function) != 0) {
        of++;
    }
    memset(from, 'a', 1024 + place);
    memset(to, 'a', 1024);
    for (int i = 0; i < 1024; i++) {
        switch (of) {
        case 0: sum += memcpy(to, from + place, 1024) != to; break;
        case 1: sum += memmove(to, from + place, 1024) != to; break;
        case 2: sum += memset(from + place, 'a', 1024) != from + place; break;
        case 3: sum += memcmp(to, from + place, 1024); break;
        case 4: sum += strlen(from + place) != 1024; break;
        case 5: sum += strcmp(to, from + place); break;
        case 6: sum += malloc(1024) == NULL; break;
        }
    }
    return sum;
}

int main(int count, char **words)
{
    if (count == 3) {
        return megabyte(words[1], atoi(words[2]));
    }
    bytes();
    at_the_end();
    heap();
    printf("%d tried, %d wrong\n", tried, wrong);
    return fclose(stdout) != 0 || wrong != 0;
}
