/* sum-too-large-for-an-int-sum-twin, without the fault
   kind: sum too large for an int
   access: sum
   far: 4
   expected: done in edition 1, done in edition 2 */
int *calls;
int *queue;
int found;

void routine(int far) {
    found = far + 1; /* no fault */
}
