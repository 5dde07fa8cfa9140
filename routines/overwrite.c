/* The pointer to two car positions is overwritten with an int, the address of the second position.
   An int store changes the value and leaves the bounds: the pointer still reaches its block. All commands are done. */
int *position;

void routine(void) {
    position = malloc(2);
    *(int *)&position = (int)position + 1;
    *position = 8; /* the second position */
}
