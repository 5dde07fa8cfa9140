/* C converts malloc's pointer to void by itself; in a table each conversion is a cast node, and this table lacks one.
   Command 0 would assign a pointer to void to a pointer to int: the table is refused and nothing runs. */
int *fault;

void routine(void) {
    fault = malloc(1); /* refused: 8, at the command's first word */
    *fault = 6;
}
