/* pointer-never-set-read
   kind: pointer never set
   access: read
   expected: abort in edition 1, abort in edition 2 */
int **lists;
int *calls;
int *queue;
int found;

void routine(int far) {
    lists = malloc(2);
    calls = lists[1];
    found = calls[0]; /* fault */
}
