/* null-pointer-write
   kind: null pointer
   access: write
   expected: abort in edition 1, abort in edition 2 */
int *calls;
int *queue;
int found;

void routine(int far) {
    calls = NULL;
    calls[0] = 9; /* fault */
}
