/* local-variable-read-past-twin, without the fault
   kind: local variable
   access: read
   distance: past
   expected: done in edition 1, done in edition 2 */
int *calls;
int *queue;
int found;

void routine(int far) {
    int floor = 4;
    int hall = 1;
    int door = 7;
    calls = &hall;
    queue = &door;
    found = calls[0]; /* no fault */
}
