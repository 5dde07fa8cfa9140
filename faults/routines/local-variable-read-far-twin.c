/* local-variable-read-far-twin, without the fault
   kind: local variable
   access: read
   distance: far
   expected: done in edition 1, done in edition 2 */
int *calls;
int *queue;
int found;

void routine(int far) {
    int floor = 4;
    int hall = 1;
    int door = 7;
    calls = &hall;
    queue = &door;
    found = calls[far]; /* no fault */
}
