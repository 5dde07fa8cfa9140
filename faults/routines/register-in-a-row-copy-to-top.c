/* register-in-a-row-copy-to-top
   kind: register in a row
   access: copy to
   distance: top
   far: words from `calls` to the last word of the address space
   registers: hall and door, natively in a row
   expected: abort in edition 1, abort in edition 2 */
struct pair {
    int first;
    int second;
};

int *hall;
int *door;
struct pair *spare;
int *calls;
int *queue;
int found;

void routine(int far) {
    calls = hall;
    queue = door;
    spare = malloc(sizeof(struct pair));
    spare->first = 5;
    spare->second = 6;
    *(struct pair *)(calls + far) = *spare; /* fault */
}
