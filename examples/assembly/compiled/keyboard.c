#define UART (*(volatile unsigned char *)0x10000000)
static volatile unsigned *const timer = (volatile unsigned *)0x0200bff8;
static const char prompt[] = "> ";

static void print(const char *s) {
    while (*s)
        UART = (unsigned char)*s++;
}

int main(void) {
    unsigned before = *timer;
    print(prompt);
    print("It is \a\b\v\f\r\n\0hidden");
    print("caf\xc3\xa9 \1\22\177");
    return (int)(timer[0] - before);
}
