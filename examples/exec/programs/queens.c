// Recursion: queens on a board, permutations, and Ackermann's function.
#include <stdio.h>

#define SIZE 8

static int column[SIZE];
static int solutions;

static int is_free(int row, int place)
{
    for (int i = 0; i < row; i++) {
        int apart = column[i] > place ? column[i] - place : place - column[i];
        if (apart == 0 || apart == row - i) {
            return 0;
        }
    }
    return 1;
}

static void put(int row)
{
    if (row == SIZE) {
        if (solutions++ == 0) {
            for (int i = 0; i < SIZE; i++) {
                for (int j = 0; j < SIZE; j++) {
                    putchar(column[i] == j ? 'Q' : '.');
                }
                putchar('\n');
            }
        }
        return;
    }
    for (int place = 0; place < SIZE; place++) {
        if (is_free(row, place)) {
            column[row] = place;
            put(row + 1);
        }
    }
}

static void permute(char *letters, int from, int count)
{
    if (from == count) {
        printf("%s ", letters);
        return;
    }
    for (int i = from; i < count; i++) {
        char kept = letters[from];
        letters[from] = letters[i];
        letters[i] = kept;
        permute(letters, from + 1, count);
        letters[i] = letters[from];
        letters[from] = kept;
    }
}

static unsigned ackermann(unsigned m, unsigned n)
{
    if (m == 0) {
        return n + 1;
    }
    return ackermann(m - 1, n == 0 ? 1 : ackermann(m, n - 1));
}

int main(void)
{
    put(0);
    printf("%d\n", solutions);
    char letters[] = "abcd";
    permute(letters, 0, 4);
    printf("\n%u %u\n", ackermann(2, 9), ackermann(3, 5));
    return 0;
}
