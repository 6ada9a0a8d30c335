/* A segment without bytes in the file. */
static char room[100000];

int main(void) {
    char *place = room;
    for (int i = 0; i < 100; i++) {
        place[i * 997] = (char)i;
    }
    return room[997];
}
