// Prints its arguments but the first, which is the path of the file, and ends with how many they are.
#include <stdio.h>

int main(int count, char **arguments)
{
    for (int i = 1; i < count; i++) {
        printf("%d: %s|\n", i, arguments[i]);
    }
    printf("behind the last: %s\n", arguments[count] == NULL ? "none" : arguments[count]);
    return count;
}
