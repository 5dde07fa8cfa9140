/* cast-between-records-copy-to-top-twin, without the fault
   kind: cast between records
   access: copy to
   distance: top
   far: 1
   expected: done in edition 1, done in edition 2 */
struct door {
    int state;
    int faults[4];
};
struct car {
    int floor;
    int calls[3];
    int load;
};
struct pair {
    int first;
    int second;
};

struct door *door;
struct car *car;
struct pair *spare;
int *calls;
int *queue;
int found;

void routine(int far) {
    door = malloc(sizeof(struct door));
    door->state = 4;
    door->faults[0] = 1;
    door->faults[1] = 2;
    door->faults[2] = 3;
    door->faults[3] = 5;
    queue = malloc(2);
    queue[0] = 7;
    queue[1] = 8;
    car = (struct car *)door;
    calls = car->calls;
    spare = malloc(sizeof(struct pair));
    spare->first = 5;
    spare->second = 6;
    *(struct pair *)(calls + far) = *spare; /* no fault */
}
