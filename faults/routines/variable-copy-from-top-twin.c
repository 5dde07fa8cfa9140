/* variable-copy-from-top-twin, without the fault
   kind: variable
   access: copy from
   distance: top
   expected: done in edition 1, done in edition 2 */
struct one {
    int word;
};

int floor;
int hall;
int door;
struct one *spare;
int *calls;
int *queue;
int found;

void routine(int far) {
    floor = 4;
    hall = 1;
    door = 7;
    calls = &hall;
    queue = &door;
    spare = malloc(sizeof(struct one));
    spare->word = 5;
    *spare = *(struct one *)(calls + far); /* no fault */
}
