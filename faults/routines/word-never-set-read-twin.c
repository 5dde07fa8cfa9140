/* word-never-set-read-twin, without the fault
   kind: word never set
   access: read
   expected: done in edition 1, done in edition 2 */
int *calls;
int *queue;
int found;

void routine(int far) {
    calls = malloc(3);
    calls[1] = 2;
    found = calls[1]; /* no fault */
}
