static inline unsigned swapped(unsigned x) {
    unsigned y;
    __asm__("srli %0, %1, 16\n\tslli %1, %1, 16\n\tor %0, %0, %1" : "=&r"(y), "+r"(x));
    return y;
}

static inline void barrier(void) { __asm__ volatile("fence rw, rw" ::: "memory"); }

int call(int number, int argument) {
    register int a0 __asm__("a0") = argument;
    register int a7 __asm__("a7") = number;
    __asm__ volatile("ecall" : "+r"(a0) : "r"(a7) : "memory");
    return a0;
}

int main(void) {
    barrier();
    return (int)swapped(0x12345678) + call(93, 0);
}
