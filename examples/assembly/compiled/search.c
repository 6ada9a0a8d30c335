static const int sorted[] = {-50, -3, 0, 1, 4, 9, 16, 25, 36, 49, 64, 81, 100, 1000, 100000};

int binary(const int *v, int n, int wanted) {
    int low = 0, high = n;
    while (low < high) {
        int middle = low + (high - low) / 2;
        if (v[middle] < wanted)
            low = middle + 1;
        else
            high = middle;
    }
    return low < n && v[low] == wanted ? low : -1;
}

const char *find(const char *in, const char *what) {
    for (; *in; in++) {
        const char *a = in, *b = what;
        while (*b && *a == *b)
            a++, b++;
        if (!*b)
            return in;
    }
    return 0;
}

int main(void) {
    static const char text[] = "the quick brown fox jumps over the lazy dog";
    return binary(sorted, 15, 49) + binary(sorted, 15, 50) + (int)(find(text, "fox") - text);
}
