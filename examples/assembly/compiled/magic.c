int by3(int x) { return x / 3; }
int by7(int x) { return x % 7; }
unsigned by10(unsigned x) { return x / 10; }
int by1000(int x) { return x / 1000; }
int by8(int x) { return x / 8 + x % 16; }
int times(int x) { return x * 10 + x * 255 + x * 4097; }
int large(int x) { return x + 2048 - (x & 0xfffff) + (x | 0x12345678) + (x ^ -4096); }
unsigned multiplied(unsigned a, unsigned b) { return (unsigned)((unsigned long long)a * b >> 32); }
int high(int a, int b) { return (int)((long long)a * b >> 32); }

int main(void) {
    int sum = 0;
    for (int x = -100000; x < 100000; x += 7919)
        sum += by3(x) ^ by7(x) ^ (int)by10((unsigned)x) ^ by1000(x) ^ by8(x) ^ times(x) ^ large(x) ^ high(x, 1 << 30);
    return sum + (int)multiplied(0xffffffff, 0xfffffffe);
}
