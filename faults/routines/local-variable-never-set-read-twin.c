/* local-variable-never-set-read-twin, without the fault
   kind: local variable never set
   access: read
   expected: done in edition 1, done in edition 2 */
int *calls;
int *queue;
int found;

void routine(int far) {
    int floor = 4;
    found = floor; /* no fault */
}
