/* A record of four words is laid over a block of two.
   A field is checked when it is used: the snapshot lies in the block, the queue does not, and its store aborts at command 2. */
struct calls {
    int snapshot[2];
    int queue[2];
};

struct calls *calls;

void routine(void) {
    calls = (struct calls *)malloc(2);
    calls->snapshot[0] = 9;
    calls->queue[0] = 9; /* aborts here */
}
