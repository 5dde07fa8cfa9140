/* block-copy-to-past-twin, without the fault
   kind: block
   access: copy to
   distance: past
   expected: done in edition 1, done in edition 2 */
struct pair {
    int first;
    int second;
};

struct pair *spare;
int *calls;
int *queue;
int found;

void routine(int far) {
    calls = malloc(3);
    calls[0] = 1;
    calls[1] = 2;
    calls[2] = 3;
    queue = malloc(2);
    queue[0] = 7;
    queue[1] = 8;
    spare = malloc(sizeof(struct pair));
    spare->first = 5;
    spare->second = 6;
    *(struct pair *)(calls + 1) = *spare; /* no fault */
}
