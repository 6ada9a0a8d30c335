struct node { int value; struct node *next; };
static struct node pool[16];
static int used;

static struct node *push(struct node *head, int value) {
    struct node *n = &pool[used++];
    n->value = value;
    n->next = head;
    return n;
}

static struct node *reversed(struct node *head) {
    struct node *done = 0;
    while (head) {
        struct node *next = head->next;
        head->next = done;
        done = head;
        head = next;
    }
    return done;
}

int main(void) {
    struct node *head = 0;
    for (int i = 0; i < 16; i++)
        head = push(head, i * i);
    head = reversed(head);
    int sum = 0;
    for (struct node *n = head; n; n = n->next)
        sum = sum * 3 + n->value;
    return sum & 0xff;
}
