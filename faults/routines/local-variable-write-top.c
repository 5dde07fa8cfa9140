/* local-variable-write-top
   kind: local variable
   access: write
   distance: top
   far: words from `calls` to the last word of the address space
   expected: abort in edition 1, abort in edition 2 */
int *calls;
int *queue;
int found;

void routine(int far) {
    int floor = 4;
    int hall = 1;
    int door = 7;
    calls = &hall;
    queue = &door;
    calls[far] = 9; /* fault */
}
