/* Routine A: a snapshot of two hall calls beside the live queue.
   The snapshot's pointer is stepped past the snapshot, and the store through it must not reach the queue. */
struct calls {
    int snapshot[2];
    int queue[2];
};

struct calls *p;
int *q;

void routine(void) {
    p = malloc(sizeof(struct calls));
    q = p->snapshot;
    *q = 9;
    q = q + 2;
    *q = 9; /* the first word of the queue: aborts here, at command 4 */
}
