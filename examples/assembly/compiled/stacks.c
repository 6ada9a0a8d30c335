static int deep(int n) {
    volatile int own[600];
    own[n] = n;
    own[599] = 1;
    return n == 0 ? own[599] : deep(n - 1) + own[n];
}

int varying(int n) {
    int items[n];
    for (int i = 0; i < n; i++)
        items[i] = i;
    int sum = 0;
    for (int i = n; i-- > 0;)
        sum = sum * 2 + items[i];
    return sum;
}

int ten(int a, int b, int c, int d, int e, int f, int g, int h, int i, int j) {
    return a - b + c - d + e - f + g - h + i * j;
}

int main(void) { return deep(5) + varying(7) + ten(1, 2, 3, 4, 5, 6, 7, 8, 9, 10); }
