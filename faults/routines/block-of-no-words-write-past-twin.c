/* block-of-no-words-write-past-twin, without the fault
   kind: block of no words
   access: write
   distance: past
   expected: done in edition 1, done in edition 2 */
int *calls;
int *queue;
int found;

void routine(int far) {
    calls = malloc(2);
    calls[0] = 9; /* no fault */
}
