/* overlapping-assignment-copy-to-twin, without the fault
   kind: overlapping assignment
   access: copy to
   expected: done in edition 1, done in edition 2 */
struct pair {
    int first;
    int second;
};

int *calls;
int *queue;
int found;

void routine(int far) {
    calls = malloc(4);
    calls[0] = 1;
    calls[1] = 2;
    calls[2] = 3;
    calls[3] = 4;
    *(struct pair *)(calls + 2) = *(struct pair *)calls; /* no fault */
}
