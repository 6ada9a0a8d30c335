static short values[] = {5, 3, 8, 1, 9, 2, 7, 6, 4, 0, -1, -300, 300};
#define COUNT ((int)(sizeof values / sizeof *values))

static void sift(short *v, int start, int end) {
    for (int root = start; 2 * root + 1 < end;) {
        int child = 2 * root + 1;
        if (child + 1 < end && v[child] < v[child + 1])
            child++;
        if (v[root] >= v[child])
            return;
        short t = v[root];
        v[root] = v[child];
        v[child] = t;
        root = child;
    }
}

int main(void) {
    for (int i = COUNT / 2 - 1; i >= 0; i--)
        sift(values, i, COUNT);
    for (int end = COUNT - 1; end > 0; end--) {
        short t = values[0];
        values[0] = values[end];
        values[end] = t;
        sift(values, 0, end);
    }
    return values[0] == -300 && values[COUNT - 1] == 300;
}
