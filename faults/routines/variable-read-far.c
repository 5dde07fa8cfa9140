/* variable-read-far
   kind: variable
   access: read
   distance: far
   far: words from `calls` to `queue`
   expected: abort in edition 1, abort in edition 2 */
int floor;
int hall;
int door;
int *calls;
int *queue;
int found;

void routine(int far) {
    floor = 4;
    hall = 1;
    door = 7;
    calls = &hall;
    queue = &door;
    found = calls[far]; /* fault */
}
