/* block-of-no-words-write-past
   kind: block of no words
   access: write
   distance: past
   expected: abort in edition 1, abort in edition 2 */
int *calls;
int *queue;
int found;

void routine(int far) {
    calls = malloc(0);
    calls[0] = 9; /* fault */
}
