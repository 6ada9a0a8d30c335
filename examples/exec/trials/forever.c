// Counts for ever, and looks at no answer.
#include <stdio.h>

int main(void)
{
    for (unsigned line = 1;; line++) {
        printf("%u\n", line);
    }
}
