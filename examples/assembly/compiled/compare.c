int signs(int a, int b) { return (a < b) | (a <= b) << 1 | (a > b) << 2 | (a >= b) << 3 | (a == b) << 4 | (a != b) << 5; }
int plain(unsigned a, unsigned b) { return (a < b) | (a <= b) << 1 | (a > b) << 2 | (a >= b) << 3; }
int zeros(int a) { return (a < 0) | (a > 0) << 1 | (a == 0) << 2 | (a != 0) << 3 | !a << 4 | (a <= 0) << 5; }
int wide(long long a, long long b) { return (a < b) | (a == b) << 1 | (a >= b) << 2; }
int clamp(int x, int low, int high) { return x < low ? low : x > high ? high : x; }
unsigned char narrow(int x) { return (unsigned char)(x + 1); }
signed char signed_narrow(int x) { return (signed char)(x * 3); }

int main(void) {
    return signs(-1, 1) + plain(-1, 1) + zeros(-5) + zeros(0) + wide(-1, 1) + clamp(70, 0, 50) + narrow(255) + signed_narrow(50);
}
