static const char *text = "2*(3+4)-18/(1+2)*-1%5";

static int sum(void);

static int value(void) {
    if (*text == '(') {
        text++;
        int inner = sum();
        text++;
        return inner;
    }
    if (*text == '-') {
        text++;
        return -value();
    }
    int n = 0;
    while (*text >= '0' && *text <= '9')
        n = n * 10 + *text++ - '0';
    return n;
}

static int product(void) {
    int left = value();
    for (;;) {
        char c = *text;
        if (c != '*' && c != '/' && c != '%')
            return left;
        text++;
        int right = value();
        if (c == '*')
            left *= right;
        else if (right)
            left = c == '/' ? left / right : left % right;
    }
}

static int sum(void) {
    int left = product();
    while (*text == '+' || *text == '-')
        left = *text++ == '+' ? left + product() : left - product();
    return left;
}

int main(void) { return sum(); }
