// Functions on texts and on bytes.
#include <ctype.h>
#include <stdio.h>
#include <stdlib.h>
#include <string.h>

static void reverse(char *text)
{
    for (size_t i = 0, j = strlen(text); i + 1 < j; i++) {
        char last = text[--j];
        text[j] = text[i];
        text[i] = last;
    }
}

static int is_palindrome(const char *text)
{
    char letters[64];
    size_t count = 0;
    for (; *text; text++) {
        if (isalpha((unsigned char)*text)) {
            letters[count++] = tolower((unsigned char)*text);
        }
    }
    letters[count] = '\0';
    char other[64];
    strcpy(other, letters);
    reverse(other);
    return strcmp(letters, other) == 0;
}

int main(void)
{
    char line[] = "alpha, beta;gamma  delta";
    for (char *word = strtok(line, " ,;"); word != NULL; word = strtok(NULL, " ,;")) {
        printf("[%s]", word);
    }
    printf("\n%d %d\n", is_palindrome("Never odd or even"), is_palindrome("Never odd or two"));
    char room[16];
    int wanted = snprintf(room, sizeof room, "%s-%05d-%c", "a long name", 42, 'x');
    printf("%d %zu %s\n", wanted, strlen(room), room);
    int year, month;
    char name[8];
    int found = sscanf("2026-11 Nov", "%d-%d %7s", &year, &month, name);
    printf("%d %d %d %s\n", found, year, month, name);
    memmove(room + 2, room, 8);
    printf("%.10s %s\n", room, strrchr("a/b/c.txt", '/'));
    printf("%s|%zu|%zu\n", strstr("find the needle here", "needle"), strspn("aabbc", "ab"), strcspn("hello world", " "));
    printf("%d %d %d\n", strcmp("a", "b") < 0, strncmp("abcd", "abce", 3), memcmp("\xff", "\x01", 1) > 0);
    char *copy = strdup("copied");
    reverse(copy);
    printf("%s %x %X %#o %5d|%-5d|%+d %%\n", copy, 0xbeefu, 0xbeefu, 8u, 42, 42, 42);
    free(copy);
    printf("%*d|%.*s|%p\n", 6, 7, 3, "abcdef", (void *)0x1234);
    return 0;
}
