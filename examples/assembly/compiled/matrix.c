#define N 6
static int a[N][N], b[N][N], c[N][N];

void multiply(int (*x)[N], int (*y)[N], int (*z)[N]) {
    for (int i = 0; i < N; i++)
        for (int j = 0; j < N; j++) {
            int sum = 0;
            for (int k = 0; k < N; k++)
                sum += x[i][k] * y[k][j];
            z[i][j] = sum;
        }
}

int main(void) {
    for (int i = 0; i < N; i++)
        for (int j = 0; j < N; j++) {
            a[i][j] = i - j;
            b[i][j] = i == j ? 2 : j;
        }
    multiply(a, b, c);
    int trace = 0;
    for (int i = 0; i < N; i++)
        trace += c[i][i];
    return trace;
}
