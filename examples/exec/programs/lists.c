// A list of 20,000 nodes of the heap, reversed and freed, and blocks that grow.
#include <stdio.h>
#include <stdlib.h>
#include <string.h>

struct node {
    int value;
    struct node *next;
};

int main(void)
{
    struct node *list = NULL;
    for (int i = 0; i < 20000; i++) {
        struct node *node = malloc(sizeof *node);
        if (node == NULL) {
            return 1;
        }
        *node = (struct node){i, list};
        list = node;
    }
    struct node *reversed = NULL;
    long long sum = 0;
    for (int i = 0; list != NULL; i++) {
        struct node *next = list->next;
        sum += (long long)list->value * i;
        list->next = reversed;
        reversed = list;
        list = next;
    }
    printf("%d %lld\n", reversed->value, sum);
    while (reversed != NULL) {
        struct node *next = reversed->next;
        free(reversed);
        reversed = next;
    }
    char *text = NULL;
    for (size_t size = 1; size <= 1 << 20; size *= 2) {
        text = realloc(text, size);
        if (text == NULL) {
            return 2;
        }
        memset(text + size / 2, 'a' + (int)(size % 26), size - size / 2);
    }
    printf("%c %c\n", text[0], text[(1 << 20) - 1]);
    free(text);
    return 0;
}
