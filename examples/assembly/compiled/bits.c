static const unsigned char counts[16] = {0, 1, 1, 2, 1, 2, 2, 3, 1, 2, 2, 3, 2, 3, 3, 4};

unsigned count(unsigned x) {
    unsigned n = 0;
    for (; x; x >>= 4)
        n += counts[x & 15];
    return n;
}

unsigned reverse(unsigned x) {
    x = (x >> 1 & 0x55555555) | (x & 0x55555555) << 1;
    x = (x >> 2 & 0x33333333) | (x & 0x33333333) << 2;
    x = (x >> 4 & 0x0f0f0f0f) | (x & 0x0f0f0f0f) << 4;
    x = (x >> 8 & 0x00ff00ff) | (x & 0x00ff00ff) << 8;
    return x >> 16 | x << 16;
}

int leading(unsigned x) {
    int n = 0;
    while (n < 32 && !(x & 0x80000000u >> n))
        n++;
    return n;
}

int main(void) {
    return (int)(count(0xdeadbeef) + count(reverse(0x12345678)) + (unsigned)leading(0x00012345));
}
