/* register-copy-from-far-twin, without the fault
   kind: register
   access: copy from
   distance: far
   registers: hall and door, natively apart
   expected: done in edition 1, done in edition 2 */
struct pair {
    int first;
    int second;
};

int *hall;
int *door;
struct pair *spare;
int *calls;
int *queue;
int found;

void routine(int far) {
    calls = hall;
    queue = door;
    spare = malloc(sizeof(struct pair));
    spare->first = 5;
    spare->second = 6;
    *spare = *(struct pair *)(calls + far); /* no fault */
}
