typedef int fixed;
#define ONE 65536

static fixed times(fixed a, fixed b) { return (fixed)((long long)a * b >> 16); }

int steps(fixed x, fixed y) {
    fixed a = 0, b = 0;
    int n = 0;
    while (n < 50) {
        fixed aa = times(a, a), bb = times(b, b);
        if (aa + bb > 4 * ONE)
            break;
        b = 2 * times(a, b) + y;
        a = aa - bb + x;
        n++;
    }
    return n;
}

char picture[12][25];

int main(void) {
    for (int row = 0; row < 12; row++)
        for (int column = 0; column < 24; column++)
            picture[row][column] = " .:-=+*#%@"[steps(ONE * (column - 16) / 8, ONE * (row - 6) / 5) / 6];
    return picture[6][16];
}
