static unsigned table[256];

static void make(void) {
    for (unsigned n = 0; n < 256; n++) {
        unsigned c = n;
        for (int k = 0; k < 8; k++)
            c = c & 1 ? 0xedb88320u ^ c >> 1 : c >> 1;
        table[n] = c;
    }
}

unsigned crc(const void *data, unsigned n) {
    const unsigned char *p = data;
    unsigned c = ~0u;
    while (n--)
        c = table[(c ^ *p++) & 0xff] ^ c >> 8;
    return ~c;
}

int main(void) {
    make();
    return crc("123456789", 9) == 0xcbf43926u;
}
