/* local-variable-read-past
   kind: local variable
   access: read
   distance: past
   expected: abort in edition 1, abort in edition 2 */
int *calls;
int *queue;
int found;

void routine(int far) {
    int floor = 4;
    int hall = 1;
    int door = 7;
    calls = &hall;
    queue = &door;
    found = calls[1]; /* fault */
}
