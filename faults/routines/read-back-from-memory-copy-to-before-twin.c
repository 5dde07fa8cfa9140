/* read-back-from-memory-copy-to-before-twin, without the fault
   kind: read back from memory
   access: copy to
   distance: before
   expected: done in edition 1, done in edition 2 */
struct pair {
    int first;
    int second;
};

int **lists;
struct pair *spare;
int *calls;
int *queue;
int found;

void routine(int far) {
    lists = malloc(2);
    lists[1] = malloc(3);
    calls = lists[1];
    calls[0] = 1;
    calls[1] = 2;
    calls[2] = 3;
    queue = malloc(2);
    queue[0] = 7;
    queue[1] = 8;
    spare = malloc(sizeof(struct pair));
    spare->first = 5;
    spare->second = 6;
    *(struct pair *)calls = *spare; /* no fault */
}
