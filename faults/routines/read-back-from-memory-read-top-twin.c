/* read-back-from-memory-read-top-twin, without the fault
   kind: read back from memory
   access: read
   distance: top
   far: 2
   expected: done in edition 1, done in edition 2 */
int **lists;
int *calls;
int *queue;
int found;

void routine(int far) {
    lists = malloc(2);
    lists[1] = malloc(3);
    calls = lists[1];
    calls[0] = 1;
    calls[1] = 2;
    calls[2] = 3;
    queue = malloc(2);
    queue[0] = 7;
    queue[1] = 8;
    found = calls[far]; /* no fault */
}
