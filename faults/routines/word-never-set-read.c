/* word-never-set-read
   kind: word never set
   access: read
   expected: done in edition 1, done in edition 2 */
int *calls;
int *queue;
int found;

void routine(int far) {
    calls = malloc(3);
    found = calls[1]; /* fault */
}
