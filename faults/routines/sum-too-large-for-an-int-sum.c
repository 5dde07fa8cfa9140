/* sum-too-large-for-an-int-sum
   kind: sum too large for an int
   access: sum
   far: the greatest int
   expected: done in edition 1, done in edition 2 */
int *calls;
int *queue;
int found;

void routine(int far) {
    found = far + 1; /* fault */
}
