#define SIZE 8
struct queue { unsigned head, tail; short items[SIZE]; };
static struct queue queue = {.items = {[SIZE - 1] = -1}};

int put(struct queue *q, short item) {
    if (q->tail - q->head == SIZE)
        return 0;
    q->items[q->tail++ % SIZE] = item;
    return 1;
}

int get(struct queue *q, short *item) {
    if (q->head == q->tail)
        return 0;
    *item = q->items[q->head++ % SIZE];
    return 1;
}

int main(void) {
    int sum = 0;
    short item;
    for (short i = 0; i < 20; i++) {
        if (!put(&queue, (short)(i * -7)) && get(&queue, &item))
            sum += item;
    }
    while (get(&queue, &item))
        sum ^= item;
    return sum;
}
