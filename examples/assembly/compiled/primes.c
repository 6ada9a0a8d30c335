static unsigned char composite[1000];
unsigned short found[168];

int main(void) {
    int n = 0;
    for (unsigned i = 2; i < 1000; i++) {
        if (composite[i])
            continue;
        found[n++] = (unsigned short)i;
        for (unsigned j = i * i; j < 1000; j += i)
            composite[j] = 1;
    }
    return found[n - 1] == 997 ? n : -1;
}
