static unsigned char packed[64];

unsigned pack(const unsigned char *in, unsigned n, unsigned char *out) {
    unsigned size = 0;
    for (unsigned i = 0; i < n;) {
        unsigned run = 1;
        while (i + run < n && run < 255 && in[i + run] == in[i])
            run++;
        out[size++] = (unsigned char)run;
        out[size++] = in[i];
        i += run;
    }
    return size;
}

int main(void) {
    static const unsigned char text[] = "aaaaabbbbbbbbbbcdddd                 eeeeeee";
    unsigned size = pack(text, sizeof text - 1, packed);
    unsigned sum = 0;
    for (unsigned i = 0; i < size; i++)
        sum = (sum << 5 | sum >> 27) ^ packed[i];
    return (int)(sum + size);
}
