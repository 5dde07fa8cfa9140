/* number-as-an-address-write
   kind: number as an address
   access: write
   expected: abort in edition 1, abort in edition 2 */
int *calls;
int *queue;
int found;

void routine(int far) {
    calls = (int *)64;
    calls[0] = 9; /* fault */
}
