/* register-in-a-row-read-past
   kind: register in a row
   access: read
   distance: past
   registers: hall and door, natively in a row
   expected: abort in edition 1, abort in edition 2 */
int *hall;
int *door;
int *calls;
int *queue;
int found;

void routine(int far) {
    calls = hall;
    queue = door;
    found = calls[3]; /* fault */
}
