enum { W = 8, H = 8 };
static unsigned char grid[H][W] = {{0}, {0, 0, 1}, {0, 0, 0, 1}, {0, 1, 1, 1}}, other[H][W];

static int around(int y, int x) {
    int n = 0;
    for (int dy = -1; dy <= 1; dy++)
        for (int dx = -1; dx <= 1; dx++)
            if (dy || dx)
                n += grid[(y + dy) & 7][(x + dx) & 7];
    return n;
}

int main(void) {
    for (int step = 0; step < 5; step++) {
        for (int y = 0; y < H; y++)
            for (int x = 0; x < W; x++) {
                int n = around(y, x);
                other[y][x] = n == 3 || (n == 2 && grid[y][x]);
            }
        for (int y = 0; y < H; y++)
            for (int x = 0; x < W; x++)
                grid[y][x] = other[y][x];
    }
    int alive = 0;
    for (int y = 0; y < H; y++)
        for (int x = 0; x < W; x++)
            alive += grid[y][x] << (y ^ x);
    return alive;
}
