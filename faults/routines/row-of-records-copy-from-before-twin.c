/* row-of-records-copy-from-before-twin, without the fault
   kind: row of records
   access: copy from
   distance: before
   expected: done in edition 1, done in edition 2 */
struct car {
    int floor;
    int load;
};

struct car *cars;
struct car *spare;
int *calls;
int *queue;
int found;

void routine(int far) {
    cars = malloc(4);
    cars[0].floor = 1;
    cars[0].load = 2;
    cars[1].floor = 3;
    cars[1].load = 4;
    spare = malloc(sizeof(struct car));
    spare->floor = 5;
    spare->load = 6;
    *spare = cars[0]; /* no fault */
}
