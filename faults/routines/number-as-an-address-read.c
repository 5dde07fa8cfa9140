/* number-as-an-address-read
   kind: number as an address
   access: read
   expected: abort in edition 1, abort in edition 2 */
int *calls;
int *queue;
int found;

void routine(int far) {
    calls = (int *)64;
    found = calls[0]; /* fault */
}
