/* null-pointer-read-twin, without the fault
   kind: null pointer
   access: read
   expected: done in edition 1, done in edition 2 */
int *calls;
int *queue;
int found;

void routine(int far) {
    calls = malloc(3);
    calls[0] = 1;
    calls[1] = 2;
    calls[2] = 3;
    found = calls[0]; /* no fault */
}
