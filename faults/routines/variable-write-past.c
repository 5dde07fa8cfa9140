/* variable-write-past
   kind: variable
   access: write
   distance: past
   expected: abort in edition 1, abort in edition 2 */
int floor;
int hall;
int door;
int *calls;
int *queue;
int found;

void routine(int far) {
    floor = 4;
    hall = 1;
    door = 7;
    calls = &hall;
    queue = &door;
    calls[1] = 9; /* fault */
}
