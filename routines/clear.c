/* A snapshot of two hall calls is cleared after use, one word too far.
   Its own two words are cleared; the third store would clear the first call of the live queue, and aborts at command 7. */
struct calls {
    int snapshot[2];
    int queue[2];
};

struct calls *calls;
int *call;

void routine(void) {
    calls = malloc(sizeof(struct calls));
    calls->queue[0] = 12;
    call = calls->snapshot;
    call[0] = 5;
    call[1] = 8;
    call[0] = 0;
    call[1] = 0;
    call[2] = 0; /* the first word of the queue: aborts here, and the 12 stays */
}
