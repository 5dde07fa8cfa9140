/* block-too-short-write-past-twin, without the fault
   kind: block too short
   access: write
   distance: past
   expected: done in edition 1, done in edition 2 */
struct car {
    int floor;
    int load;
};

struct car *car;
struct car *spare;
int *calls;
int *queue;
int found;

void routine(int far) {
    spare = malloc(sizeof(struct car));
    spare->floor = 5;
    spare->load = 6;
    car = malloc(sizeof(struct car));
    car->load = 9; /* no fault */
}
