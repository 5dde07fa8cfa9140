/* null-pointer-copy-to
   kind: null pointer
   access: copy to
   expected: abort in edition 1, abort in edition 2 */
struct pair {
    int first;
    int second;
};

struct pair *spare;
int *calls;
int *queue;
int found;

void routine(int far) {
    spare = malloc(sizeof(struct pair));
    spare->first = 5;
    spare->second = 6;
    calls = NULL;
    *(struct pair *)calls = *spare; /* fault */
}
