// A tree of words on the heap, by input, which is freed and made again; and qsort with bsearch.
#include <stdio.h>
#include <stdlib.h>
#include <string.h>

struct node {
    char *word;
    int count;
    struct node *less;
    struct node *more;
};

static int nodes;

static struct node *add(struct node *node, const char *word)
{
    if (node == NULL) {
        node = calloc(1, sizeof *node);
        node->word = strdup(word);
        node->count = 1;
        nodes++;
        return node;
    }
    int order = strcmp(word, node->word);
    if (order == 0) {
        node->count++;
    } else if (order < 0) {
        node->less = add(node->less, word);
    } else {
        node->more = add(node->more, word);
    }
    return node;
}

static int depth(const struct node *node)
{
    if (node == NULL) {
        return 0;
    }
    int less = depth(node->less), more = depth(node->more);
    return 1 + (less > more ? less : more);
}

static struct node **list(struct node *node, struct node **into)
{
    if (node == NULL) {
        return into;
    }
    into = list(node->less, into);
    *into++ = node;
    return list(node->more, into);
}

static void drop(struct node *node)
{
    if (node != NULL) {
        drop(node->less);
        drop(node->more);
        free(node->word);
        free(node);
        nodes--;
    }
}

static int by_count(const void *a, const void *b)
{
    const struct node *one = *(struct node *const *)a, *other = *(struct node *const *)b;
    return one->count != other->count ? other->count - one->count : strcmp(one->word, other->word);
}

static int by_number(const void *key, const void *item)
{
    return *(const int *)key - *(const int *)item;
}

int main(void)
{
    struct node *root = NULL;
    char word[32];
    while (scanf("%31s", word) == 1) {
        root = add(root, word);
    }
    printf("%d words, %d deep\n", nodes, depth(root));
    struct node **all = malloc(nodes * sizeof *all);
    list(root, all);
    qsort(all, nodes, sizeof *all, by_count);
    for (int i = 0; i < nodes && i < 5; i++) {
        printf("%d %s\n", all[i]->count, all[i]->word);
    }
    free(all);
    drop(root);
    printf("%d left\n", nodes);
    static const int squares[] = {0, 1, 4, 9, 16, 25, 36, 49};
    int sought = 25, missing = 26;
    const int *found = bsearch(&sought, squares, 8, sizeof *squares, by_number);
    printf("%d %d\n", (int)(found - squares), bsearch(&missing, squares, 8, sizeof *squares, by_number) == NULL);
    for (int round = 0; round < 200; round++) {
        char *block = malloc(100000);
        memset(block, round, 100000);
        free(block);
    }
    printf("the heap is used again\n");
    return 0;
}
