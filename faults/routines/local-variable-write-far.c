/* local-variable-write-far
   kind: local variable
   access: write
   distance: far
   far: words from `calls` to `queue`
   expected: abort in edition 1, abort in edition 2 */
int *calls;
int *queue;
int found;

void routine(int far) {
    int floor = 4;
    int hall = 1;
    int door = 7;
    calls = &hall;
    queue = &door;
    calls[far] = 9; /* fault */
}
