/* Two registers are handed in: the hall calls, and the door faults in the words beside them.
   The first hall call becomes the next stop, and the others move up. All commands are done; the faults are as they were. */
int *calls;  /* register: three hall calls */
int *faults; /* register: two door faults */
int stop;

void routine(void) {
    stop = calls[0];
    calls[0] = calls[1];
    calls[1] = calls[2];
    calls[2] = 0;
}
