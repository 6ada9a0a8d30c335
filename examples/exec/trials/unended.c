// Prints a line that it does not end. Its status tells whether the line before could be written.
#include <stdio.h>

int main(void)
{
    int count = printf("the first line\nthe last line has no end");
    return count < 0 ? 8 : 7;
}
