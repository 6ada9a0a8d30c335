// The start of a program, and its calls of Linux, with no C library.
static long call(long number, long a, long b, long c) {
    register long a0 __asm__("a0") = a, a1 __asm__("a1") = b, a2 __asm__("a2") = c;
    register long a7 __asm__("a7") = number;
    __asm__ volatile("ecall" : "+r"(a0) : "r"(a1), "r"(a2), "r"(a7) : "memory");
    return a0;
}

int main(int count, char **words);

__attribute__((used)) static void begin(long *sp) {
    call(93, main((int)sp[0], (char **)(sp + 1)), 0, 0);
    for (;;)
        ;
}

__asm__(".globl _start\n_start:\n mv a0, sp\n call begin");

static void print(const char *text) {
    long length = 0;
    while (text[length])
        length++;
    call(64, 1, (long)text, length);
}
