void *memcpy(void *to, const void *from, unsigned n) {
    char *t = to;
    const volatile char *f = from;
    while (n--)
        *t++ = *f++;
    return to;
}

void *memset(void *to, int byte, unsigned n) {
    volatile char *t = to;
    while (n--)
        *t++ = (char)byte;
    return to;
}

struct big { int items[40]; };
static struct big first = {{1, 2, 3}}, second;

struct big changed(struct big b, int i) {
    b.items[i] = 99;
    return b;
}

int main(void) {
    struct big local = {{0}};
    second = first;
    local = changed(second, 5);
    return local.items[5] + second.items[5] + local.items[2];
}
