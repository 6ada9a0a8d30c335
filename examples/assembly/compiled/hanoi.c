static signed char pegs[3][10];
static int heights[3];

static void move(int from, int to) {
    pegs[to][heights[to]++] = pegs[from][--heights[from]];
}

int hanoi(int n, int from, int to, int by) {
    if (n == 0)
        return 0;
    int moves = hanoi(n - 1, from, by, to);
    move(from, to);
    return moves + 1 + hanoi(n - 1, by, to, from);
}

int main(void) {
    for (signed char i = 8; i > 0; i--)
        pegs[0][heights[0]++] = i;
    return hanoi(8, 0, 2, 1) - heights[2];
}
