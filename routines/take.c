/* A snapshot of the live calls is taken by one assignment. The routine serves the snapshot's first call, and the other moves up.
   All commands are done, and the live calls, in the register, are as they were. */
struct calls {
    int count;
    int floors[3];
};

struct calls *live; /* register: two hall calls */
struct calls *snapshot;
int stop;

void routine(void) {
    snapshot = malloc(sizeof(struct calls));
    *snapshot = *live;
    stop = snapshot->floors[0];
    snapshot->floors[0] = snapshot->floors[1];
    snapshot->floors[1] = 0;
    snapshot->count = snapshot->count - 1;
}
