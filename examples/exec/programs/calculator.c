// A calculator: each line of the input is an expression, which is read by recursive descent. A
// mistake leaves by longjmp.
#include <ctype.h>
#include <setjmp.h>
#include <stdio.h>
#include <string.h>

static const char *place;
static jmp_buf mistakes;

static double sum(void);

static void skip(void)
{
    while (isspace((unsigned char)*place)) {
        place++;
    }
}

static double factor(void)
{
    skip();
    double value = 0;
    if (*place == '(') {
        place++;
        value = sum();
        skip();
        if (*place++ != ')') {
            longjmp(mistakes, 1);
        }
        return value;
    }
    if (*place == '-') {
        place++;
        return -factor();
    }
    int length;
    if (!isdigit((unsigned char)*place) || sscanf(place, "%lf%n", &value, &length) != 1) {
        longjmp(mistakes, 2);
    }
    place += length;
    return value;
}

static double product(void)
{
    double value = factor();
    for (;;) {
        skip();
        if (*place == '*') {
            place++;
            value *= factor();
        } else if (*place == '/') {
            place++;
            double by = factor();
            if (by == 0) {
                longjmp(mistakes, 3);
            }
            value /= by;
        } else {
            return value;
        }
    }
}

static double sum(void)
{
    double value = product();
    for (;;) {
        skip();
        if (*place == '+') {
            place++;
            value += product();
        } else if (*place == '-') {
            place++;
            value -= product();
        } else {
            return value;
        }
    }
}

int main(void)
{
    static const char *const texts[] = {"", "a ) is missing", "a number is missing", "division by zero", "more behind"};
    char line[80];
    int wrong = 0;
    while (fgets(line, sizeof line, stdin) != NULL) {
        line[strcspn(line, "\n")] = '\0';
        place = line;
        int mistake = setjmp(mistakes);
        if (mistake == 0) {
            double value = sum();
            if (*place != '\0') {
                longjmp(mistakes, 4);
            }
            printf("%s = %.10g\n", line, value);
        } else {
            printf("%s: %s\n", line, texts[mistake]);
            wrong++;
        }
    }
    return wrong;
}
