#include "start.h"

struct point {
    int x, y;
    char name[8];
    struct point *next;
};

struct point second = {3, -4, "second", 0};
struct point first = {1, 2, "first", &second};

static int length_of(struct point *point) {
    int length = 0;
    while (point) {
        length = length + 1;
        point = point->next;
    }
    return length;
}

static int depth(int n) {
    if (n == 0)
        return length_of(&first);
    return depth(n - 1) + 1;
}

int main(int count, char **words) {
    return depth(3);
}
