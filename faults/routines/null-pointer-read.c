/* null-pointer-read
   kind: null pointer
   access: read
   expected: abort in edition 1, abort in edition 2 */
int *calls;
int *queue;
int found;

void routine(int far) {
    calls = NULL;
    found = calls[0]; /* fault */
}
