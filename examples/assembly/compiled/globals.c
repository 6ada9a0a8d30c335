int nothing;
int one = 1;
static long negative = -123456789;
const int constant = 77;
char letters[5] = "abcd";
short halves[3] = {-1, 2};
unsigned char bytes[] = {0xff, 0x80, 7};
int *address = &one;
int *inside = &((int *)0)[3];
char *last = &letters[3];
const char *const names[2] = {"left", "right"};
volatile int device = 0x10000000;
static int hidden[100];
int aligned __attribute__((aligned(64))) = 5;
int far __attribute__((section(".data.far"))) = 6;
int small __attribute__((section(".sdata.small"))) = 8;

int main(void) {
    hidden[50] = *address + constant;
    *last = names[1][0];
    return nothing + one + (int)negative + hidden[50] + letters[3] + halves[0] + bytes[1] + (int)inside + device + aligned + far + small;
}
