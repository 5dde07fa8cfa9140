/* register-read-far-twin, without the fault
   kind: register
   access: read
   distance: far
   registers: hall and door, natively apart
   expected: done in edition 1, done in edition 2 */
int *hall;
int *door;
int *calls;
int *queue;
int found;

void routine(int far) {
    calls = hall;
    queue = door;
    found = calls[far]; /* no fault */
}
