/* pointer-never-set-write-twin, without the fault
   kind: pointer never set
   access: write
   expected: done in edition 1, done in edition 2 */
int **lists;
int *calls;
int *queue;
int found;

void routine(int far) {
    lists = malloc(2);
    lists[1] = malloc(3);
    lists[1][0] = 1;
    lists[1][1] = 2;
    lists[1][2] = 3;
    calls = lists[1];
    calls[0] = 9; /* no fault */
}
