#define N 6
#define FAR 0x3fffffff
static const int map[N][N] = {
    {0, 7, 9, FAR, FAR, 14}, {7, 0, 10, 15, FAR, FAR}, {9, 10, 0, 11, FAR, 2},
    {FAR, 15, 11, 0, 6, FAR}, {FAR, FAR, FAR, 6, 0, 9}, {14, FAR, 2, FAR, 9, 0},
};

int shortest(int from, int to) {
    int best[N];
    _Bool done[N] = {0};
    for (int i = 0; i < N; i++)
        best[i] = i == from ? 0 : FAR;
    for (int round = 0; round < N; round++) {
        int near = -1;
        for (int i = 0; i < N; i++)
            if (!done[i] && (near < 0 || best[i] < best[near]))
                near = i;
        done[near] = 1;
        for (int i = 0; i < N; i++)
            if (best[near] + map[near][i] < best[i])
                best[i] = best[near] + map[near][i];
    }
    return best[to];
}

void *memset(void *to, int byte, unsigned n) {
    volatile char *t = to;
    while (n--)
        *t++ = (char)byte;
    return to;
}

int main(void) { return shortest(0, 4); }
