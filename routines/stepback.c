/* The positions of three cars in one block, filled from the last one backwards.
   The address of an element keeps the bounds of the whole block, so that stepping back is allowed. All commands are done. */
int *cars;
int *last;

void routine(void) {
    cars = malloc(3);
    last = &cars[2];
    *last = 12;
    last[-1] = 7; /* -1 is 4294967295 in the table */
    last[-2] = 3;
}
