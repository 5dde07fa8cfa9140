/* block-too-short-copy-to-past
   kind: block too short
   access: copy to
   distance: past
   expected: abort in edition 1, abort in edition 2 */
struct car {
    int floor;
    int load;
};

struct car *car;
struct car *spare;
int *calls;
int *queue;
int found;

void routine(int far) {
    spare = malloc(sizeof(struct car));
    spare->floor = 5;
    spare->load = 6;
    car = malloc(sizeof(car));
    *car = *spare; /* fault */
}
