/* block-too-short-copy-from-past
   kind: block too short
   access: copy from
   distance: past
   expected: abort in edition 1, abort in edition 2 */
struct car {
    int floor;
    int load;
};

struct car *car;
struct car *spare;
int *calls;
int *queue;
int found;

void routine(int far) {
    spare = malloc(sizeof(struct car));
    spare->floor = 5;
    spare->load = 6;
    car = malloc(sizeof(car));
    car->floor = 1;
    *spare = *car; /* fault */
}
