/* register-copy-to-before
   kind: register
   access: copy to
   distance: before
   registers: hall and door, natively apart
   expected: abort in edition 1, abort in edition 2 */
struct pair {
    int first;
    int second;
};

int *hall;
int *door;
struct pair *spare;
int *calls;
int *queue;
int found;

void routine(int far) {
    calls = hall;
    queue = door;
    spare = malloc(sizeof(struct pair));
    spare->first = 5;
    spare->second = 6;
    *(struct pair *)(calls - 1) = *spare; /* fault */
}
