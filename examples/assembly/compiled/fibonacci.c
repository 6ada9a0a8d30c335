unsigned slow(unsigned n) { return n < 2 ? n : slow(n - 1) + slow(n - 2); }

unsigned fast(unsigned n) {
    unsigned a = 0, b = 1;
    while (n--) {
        unsigned c = a + b;
        a = b;
        b = c;
    }
    return a;
}

int main(void) { return slow(12) == fast(12) ? (int)fast(30) : -1; }
