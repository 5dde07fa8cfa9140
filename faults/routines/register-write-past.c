/* register-write-past
   kind: register
   access: write
   distance: past
   registers: hall and door, natively apart
   expected: abort in edition 1, abort in edition 2 */
int *hall;
int *door;
int *calls;
int *queue;
int found;

void routine(int far) {
    calls = hall;
    queue = door;
    calls[3] = 9; /* fault */
}
