/* register-read-far
   kind: register
   access: read
   distance: far
   far: words from `calls` to `queue`
   registers: hall and door, natively apart
   expected: abort in edition 1, abort in edition 2 */
int *hall;
int *door;
int *calls;
int *queue;
int found;

void routine(int far) {
    calls = hall;
    queue = door;
    found = calls[far]; /* fault */
}
