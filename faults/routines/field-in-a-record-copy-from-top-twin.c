/* field-in-a-record-copy-from-top-twin, without the fault
   kind: field in a record
   access: copy from
   distance: top
   far: 1
   expected: done in edition 1, done in edition 2 */
struct car {
    int floor;
    int calls[3];
    int *next;
};
struct pair {
    int first;
    int second;
};

struct car *car;
struct pair *spare;
int *calls;
int *queue;
int found;

void routine(int far) {
    car = malloc(sizeof(struct car));
    calls = car->calls;
    calls[0] = 1;
    calls[1] = 2;
    calls[2] = 3;
    queue = malloc(2);
    queue[0] = 7;
    queue[1] = 8;
    car->floor = 4;
    car->next = queue;
    spare = malloc(sizeof(struct pair));
    spare->first = 5;
    spare->second = 6;
    *spare = *(struct pair *)(calls + far); /* no fault */
}
