/* A large number is added to the pointer to two door faults; the sum wraps at 32 bits and is the word before the block.
   That word is the variable fault itself. It is below the base, and the store aborts at command 2. */
int *fault;

void routine(void) {
    fault = malloc(2);
    *fault = 6;
    *(fault + 4294967295u) = 0; /* aborts here */
}
