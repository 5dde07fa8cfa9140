/* register-write-top
   kind: register
   access: write
   distance: top
   far: words from `calls` to the last word of the address space
   registers: hall and door, natively apart
   expected: abort in edition 1, abort in edition 2 */
int *hall;
int *door;
int *calls;
int *queue;
int found;

void routine(int far) {
    calls = hall;
    queue = door;
    calls[far] = 9; /* fault */
}
