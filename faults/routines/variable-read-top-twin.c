/* variable-read-top-twin, without the fault
   kind: variable
   access: read
   distance: top
   expected: done in edition 1, done in edition 2 */
int floor;
int hall;
int door;
int *calls;
int *queue;
int found;

void routine(int far) {
    floor = 4;
    hall = 1;
    door = 7;
    calls = &hall;
    queue = &door;
    found = calls[far]; /* no fault */
}
