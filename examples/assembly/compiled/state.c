enum state { SPACE, WORD, NUMBER, COMMENT, DONE };
struct counts { int words, numbers, lines; };

static enum state step(enum state s, char c, struct counts *n) {
    if (c == '\n')
        n->lines++;
    if (s == COMMENT)
        return c == '\n' ? SPACE : COMMENT;
    switch (c) {
    case 0: return DONE;
    case '#': return COMMENT;
    case ' ': case '\t': case '\n': return SPACE;
    case '0': case '1': case '2': case '3': case '4': case '5': case '6': case '7': case '8': case '9':
        if (s == SPACE)
            n->numbers++;
        return s == SPACE ? NUMBER : s;
    default:
        if (s == SPACE)
            n->words++;
        return s == NUMBER ? NUMBER : WORD;
    }
}

int main(void) {
    struct counts n = {0};
    enum state s = SPACE;
    for (const char *p = "li a0, 5 # five\n  add a1 a2 17\n"; s != DONE; p++)
        s = step(s, *p, &n);
    return n.words * 100 + n.numbers * 10 + n.lines;
}
