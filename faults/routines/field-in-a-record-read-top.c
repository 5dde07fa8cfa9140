/* field-in-a-record-read-top
   kind: field in a record
   access: read
   distance: top
   far: words from `calls` to the last word of the address space
   expected: abort in edition 1, abort in edition 2 */
struct car {
    int floor;
    int calls[3];
    int *next;
};

struct car *car;
int *calls;
int *queue;
int found;

void routine(int far) {
    car = malloc(sizeof(struct car));
    calls = car->calls;
    calls[0] = 1;
    calls[1] = 2;
    calls[2] = 3;
    queue = malloc(2);
    queue[0] = 7;
    queue[1] = 8;
    car->floor = 4;
    car->next = queue;
    found = calls[far]; /* fault */
}
