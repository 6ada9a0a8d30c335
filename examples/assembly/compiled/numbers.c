static char digits[33];

char *written(int value, unsigned base) {
    static const char shapes[] = "0123456789abcdefghijklmnopqrstuvwxyz";
    char *p = digits + 32;
    unsigned n = value < 0 ? 0u - (unsigned)value : (unsigned)value;
    do
        *--p = shapes[n % base];
    while (n /= base);
    if (value < 0)
        *--p = '-';
    return p;
}

int read(const char *s, int base) {
    int sign = 1, n = 0;
    if (*s == '-')
        sign = -1, s++;
    for (; *s; s++)
        n = n * base + (*s <= '9' ? *s - '0' : *s - 'a' + 10);
    return sign * n;
}

int main(void) {
    int bad = 0;
    for (int b = 2; b <= 36; b++)
        for (int v = -1000000; v <= 1000000; v += 333333)
            bad += read(written(v, (unsigned)b), b) != v;
    return bad;
}
