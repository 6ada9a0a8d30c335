int data[] = {9, -3, 7, 0, 12, -8, 5, 5, 1, 100, -100, 42, 17, 3, 2, 64};

static void swap(int *x, int *y) {
    int t = *x;
    *x = *y;
    *y = t;
}

void sort(int *v, int low, int high) {
    if (low >= high)
        return;
    int pivot = v[(low + high) / 2], i = low, j = high;
    while (i <= j) {
        while (v[i] < pivot)
            i++;
        while (v[j] > pivot)
            j--;
        if (i <= j)
            swap(&v[i++], &v[j--]);
    }
    sort(v, low, j);
    sort(v, i, high);
}

int main(void) {
    int n = sizeof data / sizeof *data;
    sort(data, 0, n - 1);
    for (int i = 1; i < n; i++)
        if (data[i - 1] > data[i])
            return 1;
    return 0;
}
