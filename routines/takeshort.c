/* The block for the snapshot is one word too short for the live calls.
   A struct is checked as a whole before its first word is copied: the assignment aborts at command 1, and the block stays clear. */
struct calls {
    int count;
    int floors[3];
};

struct calls *live; /* register: two hall calls */
struct calls *snapshot;

void routine(void) {
    snapshot = malloc(sizeof(struct calls) - 1);
    *snapshot = *live; /* aborts here */
}
