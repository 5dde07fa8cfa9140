/* A pointer to a pointer: answering points to position, the pointer to the answering car's position.
   Through it a floor is stored and position gets another block. All commands are done. */
int *position;
int **answering;

void routine(void) {
    position = malloc(1);
    answering = &position;
    **answering = 7;
    *answering = malloc(2); /* position now points to the new block */
    position[1] = 9;
}
