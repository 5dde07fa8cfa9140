/* block-copy-to-top
   kind: block
   access: copy to
   distance: top
   far: words from `calls` to the last word of the address space
   expected: abort in edition 1, abort in edition 2 */
struct pair {
    int first;
    int second;
};

struct pair *spare;
int *calls;
int *queue;
int found;

void routine(int far) {
    calls = malloc(3);
    calls[0] = 1;
    calls[1] = 2;
    calls[2] = 3;
    queue = malloc(2);
    queue[0] = 7;
    queue[1] = 8;
    spare = malloc(sizeof(struct pair));
    spare->first = 5;
    spare->second = 6;
    *(struct pair *)(calls + far) = *spare; /* fault */
}
