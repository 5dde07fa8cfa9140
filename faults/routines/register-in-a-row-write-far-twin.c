/* register-in-a-row-write-far-twin, without the fault
   kind: register in a row
   access: write
   distance: far
   registers: hall and door, natively in a row
   expected: done in edition 1, done in edition 2 */
int *hall;
int *door;
int *calls;
int *queue;
int found;

void routine(int far) {
    calls = hall;
    queue = door;
    calls[far] = 9; /* no fault */
}
