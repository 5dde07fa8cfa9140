/* For edition 2. The pointer to two car positions is overwritten with a number, the address of the second position.
   The number has no bounds, and so the pointer has none any more: the store through it aborts at command 2. In edition 1 an int store leaves the
   bounds, and all commands are done. */
int *position;

void routine(void) {
    position = malloc(2);
    *(int *)&position = 3;
    *position = 8; /* aborts here */
}
