/* cast-through-int-write-before
   kind: cast through int
   access: write
   distance: before
   expected: abort in edition 1, abort in edition 2 */
int *list;
int number;
int *calls;
int *queue;
int found;

void routine(int far) {
    list = malloc(3);
    list[0] = 1;
    list[1] = 2;
    list[2] = 3;
    queue = malloc(2);
    queue[0] = 7;
    queue[1] = 8;
    number = (int)list;
    calls = (int *)number;
    calls[-1] = 9; /* fault */
}
