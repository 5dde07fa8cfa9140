/* register-write-far
   kind: register
   access: write
   distance: far
   far: words from `calls` to `queue`
   registers: hall and door, natively apart
   expected: abort in edition 1, abort in edition 2 */
int *hall;
int *door;
int *calls;
int *queue;
int found;

void routine(int far) {
    calls = hall;
    queue = door;
    calls[far] = 9; /* fault */
}
