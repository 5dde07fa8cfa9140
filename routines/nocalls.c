/* The register of hall calls is handed in empty: its pointer is 0 and has no bounds, and the first word that is wanted of it is an
   abort, at command 0. */
int *calls; /* register: no hall calls */
int stop;

void routine(void) {
    stop = calls[0];
}
