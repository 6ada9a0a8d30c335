static char letters[] = "abcde";
static int count, checksum;

static void visit(void) {
    count++;
    for (int i = 0; letters[i]; i++)
        checksum = checksum * 31 + letters[i];
}

static void permute(int n) {
    if (n == 1) {
        visit();
        return;
    }
    for (int i = 0; i < n; i++) {
        permute(n - 1);
        int other = n % 2 ? 0 : i;
        char t = letters[n - 1];
        letters[n - 1] = letters[other];
        letters[other] = t;
    }
}

int main(void) {
    permute(5);
    return count + (checksum & 1);
}
