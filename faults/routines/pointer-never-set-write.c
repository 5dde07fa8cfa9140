/* pointer-never-set-write
   kind: pointer never set
   access: write
   expected: abort in edition 1, abort in edition 2 */
int **lists;
int *calls;
int *queue;
int found;

void routine(int far) {
    lists = malloc(2);
    calls = lists[1];
    calls[0] = 9; /* fault */
}
