/* block-read-past-twin, without the fault
   kind: block
   access: read
   distance: past
   expected: done in edition 1, done in edition 2 */
int *calls;
int *queue;
int found;

void routine(int far) {
    calls = malloc(3);
    calls[0] = 1;
    calls[1] = 2;
    calls[2] = 3;
    queue = malloc(2);
    queue[0] = 7;
    queue[1] = 8;
    found = calls[2]; /* no fault */
}
