/* block-read-before
   kind: block
   access: read
   distance: before
   expected: abort in edition 1, abort in edition 2 */
int *calls;
int *queue;
int found;

void routine(int far) {
    calls = malloc(3);
    calls[0] = 1;
    calls[1] = 2;
    calls[2] = 3;
    queue = malloc(2);
    queue[0] = 7;
    queue[1] = 8;
    found = calls[-1]; /* fault */
}
