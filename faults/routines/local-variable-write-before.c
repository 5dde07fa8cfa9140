/* local-variable-write-before
   kind: local variable
   access: write
   distance: before
   expected: abort in edition 1, abort in edition 2 */
int *calls;
int *queue;
int found;

void routine(int far) {
    int floor = 4;
    int hall = 1;
    int door = 7;
    calls = &hall;
    queue = &door;
    calls[-1] = 9; /* fault */
}
