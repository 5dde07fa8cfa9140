/* register-read-top
   kind: register
   access: read
   distance: top
   far: words from `calls` to the last word of the address space
   registers: hall and door, natively apart
   expected: abort in edition 1, abort in edition 2 */
int *hall;
int *door;
int *calls;
int *queue;
int found;

void routine(int far) {
    calls = hall;
    queue = door;
    found = calls[far]; /* fault */
}
