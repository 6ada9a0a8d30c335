struct event { unsigned time; void (*act)(struct event *); struct event *next; };
static struct event *first;
static unsigned now;
static int ticks, tocks;

static void schedule(struct event *e, unsigned delay) {
    struct event **at = &first;
    e->time = now + delay;
    while (*at && (*at)->time <= e->time)
        at = &(*at)->next;
    e->next = *at;
    *at = e;
}

static void tick(struct event *e) {
    ticks++;
    if (now < 100)
        schedule(e, 7);
}

static void tock(struct event *e) {
    tocks++;
    if (now < 100)
        schedule(e, 11);
}

static struct event events[] = {{0, tick, 0}, {0, tock, &events[0]}};

int main(void) {
    schedule(&events[0], 3);
    schedule(&events[1], 5);
    while (first) {
        struct event *e = first;
        first = e->next;
        now = e->time;
        e->act(e);
    }
    return ticks * 16 + tocks;
}
