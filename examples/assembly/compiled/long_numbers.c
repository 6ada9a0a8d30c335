unsigned long long state = 0x0123456789abcdefULL;
long long sums[3] = {-1, 1LL << 40, 0x7fffffffffffffffLL};

unsigned long long next(void) {
    state ^= state << 13;
    state ^= state >> 7;
    state ^= state << 17;
    return state;
}

long long mixed(long long a, long long b) {
    return a * b + (a - b) - (a & ~b);
}

int main(void) {
    for (int i = 0; i < 10; i++)
        sums[i % 3] += mixed((long long)next(), i);
    return (int)(sums[0] ^ sums[1] >> 32) + (sums[2] < 0);
}
