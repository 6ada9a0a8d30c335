// The product of two matrices, structs by value, and bit fields.
#include <stdio.h>

struct matrix {
    int cells[8][8];
};

static struct matrix product(struct matrix a, struct matrix b)
{
    struct matrix c;
    for (int i = 0; i < 8; i++) {
        for (int j = 0; j < 8; j++) {
            c.cells[i][j] = 0;
            for (int k = 0; k < 8; k++) {
                c.cells[i][j] += a.cells[i][k] * b.cells[k][j];
            }
        }
    }
    return c;
}

struct fields {
    unsigned low : 3;
    signed middle : 7;
    unsigned high : 22;
};

int main(void)
{
    struct matrix a, b;
    for (int i = 0; i < 8; i++) {
        for (int j = 0; j < 8; j++) {
            a.cells[i][j] = i * 3 - j;
            b.cells[i][j] = i == j ? 2 : j - i;
        }
    }
    struct matrix c = product(product(a, b), a);
    int trace = 0;
    for (int i = 0; i < 8; i++) {
        trace += c.cells[i][i];
    }
    printf("%d %d %d\n", trace, c.cells[0][7], c.cells[7][0]);
    struct fields fields = {.low = 5, .middle = -33, .high = 0x3fffff};
    fields.low += 4;
    fields.high++;
    printf("%u %d %u %d\n", fields.low, fields.middle, fields.high, (int)sizeof fields);
    return 0;
}
