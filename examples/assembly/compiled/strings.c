static const char *const words[] = {"zero", "one", "two", "three\n", "tab\tend", "quote\"s", "back\\slash", ""};
char buffer[80];

int length(const char *s) {
    int n = 0;
    while (s[n])
        n++;
    return n;
}

char *append(char *to, const char *from) {
    while ((*to = *from++))
        to++;
    return to;
}

int compare(const char *a, const char *b) {
    while (*a && *a == *b)
        a++, b++;
    return (unsigned char)*a - (unsigned char)*b;
}

int main(void) {
    char *end = buffer;
    for (unsigned i = 0; i < sizeof words / sizeof *words; i++)
        end = append(end, words[i]);
    return length(buffer) + (compare("abc", "abd") < 0) + (compare(words[0], "zero") == 0);
}
