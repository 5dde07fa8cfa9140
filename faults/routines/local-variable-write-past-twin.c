/* local-variable-write-past-twin, without the fault
   kind: local variable
   access: write
   distance: past
   expected: done in edition 1, done in edition 2 */
int *calls;
int *queue;
int found;

void routine(int far) {
    int floor = 4;
    int hall = 1;
    int door = 7;
    calls = &hall;
    queue = &door;
    calls[0] = 9; /* no fault */
}
