/* register-in-a-row-write-before
   kind: register in a row
   access: write
   distance: before
   registers: hall and door, natively in a row
   expected: abort in edition 1, abort in edition 2 */
int *hall;
int *door;
int *calls;
int *queue;
int found;

void routine(int far) {
    calls = hall;
    queue = door;
    calls[-1] = 9; /* fault */
}
