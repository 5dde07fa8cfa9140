/* cast-through-int-copy-to-top
   kind: cast through int
   access: copy to
   distance: top
   far: words from `calls` to the last word of the address space
   expected: abort in edition 1, abort in edition 2 */
struct pair {
    int first;
    int second;
};

int *list;
int number;
struct pair *spare;
int *calls;
int *queue;
int found;

void routine(int far) {
    list = malloc(3);
    list[0] = 1;
    list[1] = 2;
    list[2] = 3;
    queue = malloc(2);
    queue[0] = 7;
    queue[1] = 8;
    number = (int)list;
    calls = (int *)number;
    spare = malloc(sizeof(struct pair));
    spare->first = 5;
    spare->second = 6;
    *(struct pair *)(calls + far) = *spare; /* fault */
}
