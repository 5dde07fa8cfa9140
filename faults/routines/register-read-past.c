/* register-read-past
   kind: register
   access: read
   distance: past
   registers: hall and door, natively apart
   expected: abort in edition 1, abort in edition 2 */
int *hall;
int *door;
int *calls;
int *queue;
int found;

void routine(int far) {
    calls = hall;
    queue = door;
    found = calls[3]; /* fault */
}
