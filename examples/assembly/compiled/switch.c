enum op { ADD, SUB, MUL, DIV, AND, OR, XOR, SHL, SHR, NEG };

int apply(enum op op, int a, int b) {
    switch (op) {
    case ADD: return a + b;
    case SUB: return a - b;
    case MUL: return a * b;
    case DIV: return b ? a / b : 0;
    case AND: return a & b;
    case OR: return a | b;
    case XOR: return a ^ b;
    case SHL: return a << (b & 31);
    case SHR: return a >> (b & 31);
    case NEG: return -a;
    }
    return 0x7fffffff;
}

const char *name(int day) {
    switch (day) {
    case 0: return "Sunday";
    case 1: return "Monday";
    case 2: return "Tuesday";
    case 3: return "Wednesday";
    case 4: return "Thursday";
    case 5: return "Friday";
    default: return "Saturday";
    }
}

int main(void) {
    int sum = 0;
    for (int op = ADD; op <= NEG; op++)
        sum += apply((enum op)op, 100, 7);
    for (int day = 0; day < 8; day++)
        sum += name(day)[0];
    return sum;
}
