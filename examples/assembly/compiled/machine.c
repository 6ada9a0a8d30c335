enum { PUSH, ADD, MUL, DUP, JNZ, DEC, SWAP, STOP };
static const signed char program[] = {PUSH, 1, PUSH, 6, DUP, JNZ, 2, STOP, SWAP, PUSH, 3, MUL, SWAP, DEC, DUP, JNZ, -8, STOP};

int run(const signed char *code) {
    int stack[8], top = 0;
    for (const signed char *pc = code;;) {
        switch (*pc++) {
        case PUSH: stack[top++] = *pc++; break;
        case ADD: top--; stack[top - 1] += stack[top]; break;
        case MUL: top--; stack[top - 1] *= stack[top]; break;
        case DUP: stack[top] = stack[top - 1]; top++; break;
        case DEC: stack[top - 1]--; break;
        case JNZ: if (stack[--top]) pc += *pc; else pc++; break;
        case SWAP: { int t = stack[top - 1]; stack[top - 1] = stack[top - 2]; stack[top - 2] = t; break; }
        default: return stack[0];
        }
    }
}

int main(void) { return run(program); }
