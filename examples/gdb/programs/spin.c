#include "start.h"

volatile unsigned counter;

int main(int count, char **words) {
    for (;;)
        counter++;
}
