/* Many functions, and a table of them. */
#define EACH(M) M(0) M(1) M(2) M(3) M(4) M(5) M(6) M(7) M(8) M(9)
#define TENS(T, M) M(T##0) M(T##1) M(T##2) M(T##3) M(T##4) M(T##5) M(T##6) M(T##7) M(T##8) M(T##9)
#define FUNCTION(N) \
    __attribute__((noinline)) int function_##N(int x) { return x * 1##N + (x >> 3); }
#define NAME(N) function_##N,
TENS(1, FUNCTION)
TENS(2, FUNCTION)
TENS(3, FUNCTION)
TENS(4, FUNCTION)
EACH(FUNCTION)

int (*const table[])(int) = {TENS(1, NAME) TENS(2, NAME) TENS(3, NAME) TENS(4, NAME) EACH(NAME)};

int main(void) {
    int x = 1;
    for (unsigned i = 0; i < sizeof table / sizeof *table; i++) {
        x = table[i](x);
    }
    return x & 0xff;
}
