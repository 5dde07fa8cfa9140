/* variable-read-top
   kind: variable
   access: read
   distance: top
   far: words from `calls` to the last word of the address space
   expected: abort in edition 1, abort in edition 2 */
int floor;
int hall;
int door;
int *calls;
int *queue;
int found;

void routine(int far) {
    floor = 4;
    hall = 1;
    door = 7;
    calls = &hall;
    queue = &door;
    found = calls[far]; /* fault */
}
