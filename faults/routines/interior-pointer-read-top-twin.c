/* interior-pointer-read-top-twin, without the fault
   kind: interior pointer
   access: read
   distance: top
   far: 2
   expected: done in edition 1, done in edition 2 */
int *list;
int *calls;
int *queue;
int found;

void routine(int far) {
    list = malloc(5);
    list[0] = 4;
    list[1] = 5;
    list[2] = 1;
    list[3] = 2;
    list[4] = 3;
    queue = malloc(2);
    queue[0] = 7;
    queue[1] = 8;
    calls = &list[2];
    found = calls[far]; /* no fault */
}
