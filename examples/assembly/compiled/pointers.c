typedef int (*function)(int);
static int twice(int x) { return 2 * x; }
static int square(int x) { return x * x; }
static int less(int x) { return x - 1; }
static const function table[] = {twice, square, less, twice};
function chosen = square;

int all(const function *f, int n, int x) {
    for (int i = 0; i < n; i++)
        x = f[i](x);
    return x;
}

int main(void) {
    int x = all(table, 4, 3);
    chosen = x & 1 ? less : twice;
    return chosen(x);
}
