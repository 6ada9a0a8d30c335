/* Symbols of each kind, with short, long and odd names. */
int a;
int b$c = 1;
const char text[] = "text";
int a_name_that_is_longer_than_the_columns_of_most_listings_leave_for_a_name_in_a_line(int x) {
    return x + b$c;
}
__asm__(".globl absolute\n.set absolute, 0x1234\n"
        ".text\n.globl label\nlabel:\n.local inner\ninner:\n nop\n"
        ".section .odd,\"a\",@progbits\n.globl odd\n.type odd, @object\nodd: .word 5\n"
        ".size odd, 4\n.text\n");

int main(void) {
    return a_name_that_is_longer_than_the_columns_of_most_listings_leave_for_a_name_in_a_line(a)
        + text[0];
}
