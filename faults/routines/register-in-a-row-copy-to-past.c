/* register-in-a-row-copy-to-past
   kind: register in a row
   access: copy to
   distance: past
   registers: hall and door, natively in a row
   expected: abort in edition 1, abort in edition 2 */
struct pair {
    int first;
    int second;
};

int *hall;
int *door;
struct pair *spare;
int *calls;
int *queue;
int found;

void routine(int far) {
    calls = hall;
    queue = door;
    spare = malloc(sizeof(struct pair));
    spare->first = 5;
    spare->second = 6;
    *(struct pair *)(calls + 2) = *spare; /* fault */
}
