struct entry { const char *key; int value; };
static struct entry table[32];

static unsigned hash(const char *s) {
    unsigned h = 2166136261u;
    for (; *s; s++)
        h = (h ^ (unsigned char)*s) * 16777619u;
    return h;
}

static int same(const char *a, const char *b) {
    for (; *a && *a == *b; a++, b++)
        ;
    return *a == *b;
}

static struct entry *slot(const char *key) {
    unsigned i = hash(key) % 32;
    while (table[i].key && !same(table[i].key, key))
        i = (i + 1) % 32;
    return &table[i];
}

int main(void) {
    static const char *const keys[] = {"red", "green", "blue", "red", "red", "blue", "grey"};
    for (unsigned i = 0; i < sizeof keys / sizeof *keys; i++) {
        struct entry *e = slot(keys[i]);
        e->key = keys[i];
        e->value++;
    }
    return slot("red")->value * 16 + slot("blue")->value;
}
