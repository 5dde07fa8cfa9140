/* register-write-top-twin, without the fault
   kind: register
   access: write
   distance: top
   far: 2
   registers: hall and door, natively apart
   expected: done in edition 1, done in edition 2 */
int *hall;
int *door;
int *calls;
int *queue;
int found;

void routine(int far) {
    calls = hall;
    queue = door;
    calls[far] = 9; /* no fault */
}
