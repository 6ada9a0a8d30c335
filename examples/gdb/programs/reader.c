#include "start.h"

char line[8];
int lines;

static int read_some(void) {
    return call(63, 0, (long)line, 4);
}

int main(int count, char **words) {
    int got;
    while ((got = read_some()) > 0) {
        lines++;
        call(64, 1, (long)line, got);
    }
    print("end\n");
    return lines + count;
}
