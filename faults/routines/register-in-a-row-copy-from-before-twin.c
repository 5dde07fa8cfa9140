/* register-in-a-row-copy-from-before-twin, without the fault
   kind: register in a row
   access: copy from
   distance: before
   registers: hall and door, natively in a row
   expected: done in edition 1, done in edition 2 */
struct pair {
    int first;
    int second;
};

int *hall;
int *door;
struct pair *spare;
int *calls;
int *queue;
int found;

void routine(int far) {
    calls = hall;
    queue = door;
    spare = malloc(sizeof(struct pair));
    spare->first = 5;
    spare->second = 6;
    *spare = *(struct pair *)calls; /* no fault */
}
