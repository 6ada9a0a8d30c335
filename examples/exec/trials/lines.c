// Reads lines, the last of which is not ended.
#include <stdio.h>
#include <string.h>

int main(void)
{
    char line[50];
    while (fgets(line, sizeof line, stdin) != NULL) {
        printf("%zu %s|\n", strlen(line), line);
    }
    printf("end %d, error %d\n", feof(stdin) != 0, ferror(stdin) != 0);
    return 0;
}
