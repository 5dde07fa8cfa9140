/* null-pointer-copy-from-twin, without the fault
   kind: null pointer
   access: copy from
   expected: done in edition 1, done in edition 2 */
struct pair {
    int first;
    int second;
};

struct pair *spare;
int *calls;
int *queue;
int found;

void routine(int far) {
    spare = malloc(sizeof(struct pair));
    spare->first = 5;
    spare->second = 6;
    calls = malloc(3);
    calls[0] = 1;
    calls[1] = 2;
    calls[2] = 3;
    *spare = *(struct pair *)calls; /* no fault */
}
