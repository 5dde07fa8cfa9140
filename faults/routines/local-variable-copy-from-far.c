/* local-variable-copy-from-far
   kind: local variable
   access: copy from
   distance: far
   far: words from `calls` to `queue`
   expected: abort in edition 1, abort in edition 2 */
struct one {
    int word;
};

struct one *spare;
int *calls;
int *queue;
int found;

void routine(int far) {
    int floor = 4;
    int hall = 1;
    int door = 7;
    calls = &hall;
    queue = &door;
    spare = malloc(sizeof(struct one));
    spare->word = 5;
    *spare = *(struct one *)(calls + far); /* fault */
}
