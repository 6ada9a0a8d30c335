// Numbers of many digits: factorials, and powers of two, by arrays of 64-bit products.
#include <inttypes.h>
#include <stdio.h>
#include <stdlib.h>
#include <string.h>

#define BASE 1000000000u

struct number {
    uint32_t *digits;
    size_t count;
    size_t room;
};

static void push(struct number *n, uint32_t digit)
{
    if (n->count == n->room) {
        n->room = 2 * n->room + 1;
        n->digits = realloc(n->digits, n->room * sizeof *n->digits);
        if (n->digits == NULL) {
            exit(1);
        }
    }
    n->digits[n->count++] = digit;
}

static void multiply(struct number *n, uint32_t factor)
{
    uint64_t carry = 0;
    for (size_t i = 0; i < n->count; i++) {
        carry += (uint64_t)n->digits[i] * factor;
        n->digits[i] = carry % BASE;
        carry /= BASE;
    }
    if (carry > 0) {
        push(n, carry);
    }
}

static void print(const struct number *n)
{
    printf("%" PRIu32, n->digits[n->count - 1]);
    for (size_t i = n->count - 1; i-- > 0;) {
        printf("%09" PRIu32, n->digits[i]);
    }
    printf("\n");
}

int main(void)
{
    struct number product = {0};
    push(&product, 1);
    for (uint32_t i = 1; i <= 100; i++) {
        multiply(&product, i);
        if (i % 20 == 0) {
            print(&product);
        }
    }
    free(product.digits);
    struct number power = {0};
    push(&power, 1);
    for (int i = 0; i < 256; i++) {
        multiply(&power, 2);
    }
    print(&power);
    free(power.digits);
    int64_t fibonacci[2] = {0, 1};
    for (int i = 0; i < 90; i++) {
        int64_t next = fibonacci[0] + fibonacci[1];
        fibonacci[0] = fibonacci[1];
        fibonacci[1] = next;
    }
    printf("%" PRId64 " %" PRIx64 " %lld\n", fibonacci[0], fibonacci[1], -fibonacci[0] / 7);
    return 0;
}
