/* register-write-past-twin, without the fault
   kind: register
   access: write
   distance: past
   registers: hall and door, natively apart
   expected: done in edition 1, done in edition 2 */
int *hall;
int *door;
int *calls;
int *queue;
int found;

void routine(int far) {
    calls = hall;
    queue = door;
    calls[2] = 9; /* no fault */
}
