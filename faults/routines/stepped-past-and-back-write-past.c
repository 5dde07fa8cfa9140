/* stepped-past-and-back-write-past
   kind: stepped past and back
   access: write
   distance: past
   expected: abort in edition 1, abort in edition 2 */
int *calls;
int *queue;
int found;

void routine(int far) {
    calls = malloc(3);
    calls[0] = 1;
    calls[1] = 2;
    calls[2] = 3;
    queue = malloc(2);
    queue[0] = 7;
    queue[1] = 8;
    calls = calls + 9;
    calls = calls - 9;
    calls[3] = 9; /* fault */
}
