// How many primes there are below 200,000, and the sum of the last three.
#include <stdio.h>

static unsigned char composite[200000];

int main(void)
{
    int count = 0, last[3] = {0};
    for (int i = 2; i < 200000; i++) {
        if (composite[i]) {
            continue;
        }
        last[count++ % 3] = i;
        // from 448 on the square is past the end
        for (int j = i * i; i < 448 && j < 200000; j += i) {
            composite[j] = 1;
        }
    }
    printf("%d %d\n", count, last[0] + last[1] + last[2]);
    return count % 256;
}
