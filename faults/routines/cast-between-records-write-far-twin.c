/* cast-between-records-write-far-twin, without the fault
   kind: cast between records
   access: write
   distance: far
   expected: done in edition 1, done in edition 2 */
struct door {
    int state;
    int faults[4];
};
struct car {
    int floor;
    int calls[3];
    int load;
};

struct door *door;
struct car *car;
int *calls;
int *queue;
int found;

void routine(int far) {
    door = malloc(sizeof(struct door));
    door->state = 4;
    door->faults[0] = 1;
    door->faults[1] = 2;
    door->faults[2] = 3;
    door->faults[3] = 5;
    queue = malloc(2);
    queue[0] = 7;
    queue[1] = 8;
    car = (struct car *)door;
    calls = car->calls;
    calls[far] = 9; /* no fault */
}
