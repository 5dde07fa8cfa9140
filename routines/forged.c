/* The address of a door's fault word is kept in an int and made a pointer again.
   The number is the right one, but a pointer made from an int has no bounds: the store through it aborts at command 4. */
int *fault;
int *again;
int number;

void routine(void) {
    fault = malloc(1);
    *fault = 6;
    number = (int)fault;
    again = (int *)number;
    *again = 0; /* aborts here: fault and again have the same value, but only fault has bounds */
}
