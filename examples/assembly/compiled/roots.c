unsigned root(unsigned n) {
    unsigned r = 0;
    for (unsigned bit = 1u << 30; bit; bit >>= 2) {
        if (n >= r + bit) {
            n -= r + bit;
            r = (r >> 1) + bit;
        } else {
            r >>= 1;
        }
    }
    return r;
}

static int gcd(int a, int b) { return b ? gcd(b, a % b) : a; }

int power(int base, unsigned exponent, int modulus) {
    int result = 1;
    for (; exponent; exponent >>= 1) {
        if (exponent & 1)
            result = (int)((unsigned)result * (unsigned)base % (unsigned)modulus);
        base = (int)((unsigned)base * (unsigned)base % (unsigned)modulus);
    }
    return result;
}

int main(void) { return (int)root(1000000) + gcd(1071, 462) + power(3, 200, 1009); }
