/* Memory of 8 words; floors is an input, 3. The hall calls get a block, and their copy finds 1 word left instead of 3.
   The run ends at command 2, out of memory; what was done before stays. */
int *calls;
int *copy;
int floors;

void routine(void) {
    calls = malloc(floors);
    calls[0] = 5;
    copy = malloc(floors); /* out of memory here */
    copy[0] = calls[0];
}
