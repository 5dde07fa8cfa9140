/* interior-pointer-copy-to-top
   kind: interior pointer
   access: copy to
   distance: top
   far: words from `calls` to the last word of the address space
   expected: abort in edition 1, abort in edition 2 */
struct pair {
    int first;
    int second;
};

int *list;
struct pair *spare;
int *calls;
int *queue;
int found;

void routine(int far) {
    list = malloc(5);
    list[0] = 4;
    list[1] = 5;
    list[2] = 1;
    list[3] = 2;
    list[4] = 3;
    queue = malloc(2);
    queue[0] = 7;
    queue[1] = 8;
    calls = &list[2];
    spare = malloc(sizeof(struct pair));
    spare->first = 5;
    spare->second = 6;
    *(struct pair *)(calls + far) = *spare; /* fault */
}
