struct point { int x, y; };
struct shape { char kind; struct point at; short size[3]; union { int number; unsigned char bytes[4]; } tag; };
struct flags { unsigned a : 3, b : 7; int c : 12; unsigned d : 10; };

struct shape shapes[2] = {{'c', {1, -2}, {3, 4, 5}, {.number = 0x01020304}}, {'s', {-70000, 70000}, {-1}, {0}}};
struct flags flags = {5, 100, -1000, 1023};

struct point moved(struct point p, int dx, int dy) {
    struct point q = {p.x + dx, p.y + dy};
    return q;
}

int main(void) {
    struct point p = moved(shapes[0].at, shapes[1].at.x, shapes[1].at.y);
    flags.b += flags.a;
    flags.c -= 7;
    return p.x + p.y + shapes[0].tag.bytes[1] + flags.b + flags.c + (int)flags.d + shapes[1].size[0];
}
