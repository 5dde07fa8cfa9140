/* The hall calls that were handed in are cleared, one word too far.
   The fourth store would clear the first door fault, in the register beside them, and aborts at command 3. */
int *calls;  /* register: three hall calls */
int *faults; /* register: two door faults */

void routine(void) {
    calls[0] = 0;
    calls[1] = 0;
    calls[2] = 0;
    calls[3] = 0; /* the first door fault: aborts here, and the 21 stays */
}
