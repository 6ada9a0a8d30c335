// Counts the words of its input, and prints the longest ones in order.
#include <ctype.h>
#include <stdio.h>
#include <string.h>

int main(void)
{
    char word[64], longest[64] = "";
    int words = 0, letters = 0;
    while (scanf("%63s", word) == 1) {
        words++;
        for (char *at = word; *at != '\0'; at++) {
            letters += isalpha((unsigned char)*at) != 0;
        }
        if (strlen(word) > strlen(longest)) {
            strcpy(longest, word);
            printf("%s\n", longest);
        }
    }
    printf("%d words, %d letters\n", words, letters);
    return 0;
}
