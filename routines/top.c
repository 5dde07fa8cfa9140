/* A record's pointer is moved near the top of 32 bits, where pointer plus offset would wrap around into the record.
   A check adds without wrapping: 4294967294 + 4 is past the end, and the store aborts at command 2. */
struct car {
    int faults[4];
    int position;
};

struct car *car;

void routine(void) {
    car = malloc(sizeof(struct car));
    car = (struct car *)((int *)car + 4294967292u); /* by words: 2 + 4294967292 = 4294967294 */
    car->position = 9;                              /* aborts here */
}
