/* null-pointer-write-twin, without the fault
   kind: null pointer
   access: write
   expected: done in edition 1, done in edition 2 */
int *calls;
int *queue;
int found;

void routine(int far) {
    calls = malloc(3);
    calls[0] = 1;
    calls[1] = 2;
    calls[2] = 3;
    calls[0] = 9; /* no fault */
}
