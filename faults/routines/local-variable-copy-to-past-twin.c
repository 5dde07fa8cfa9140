/* local-variable-copy-to-past-twin, without the fault
   kind: local variable
   access: copy to
   distance: past
   expected: done in edition 1, done in edition 2 */
struct one {
    int word;
};

struct one *spare;
int *calls;
int *queue;
int found;

void routine(int far) {
    int floor = 4;
    int hall = 1;
    int door = 7;
    calls = &hall;
    queue = &door;
    spare = malloc(sizeof(struct one));
    spare->word = 5;
    *(struct one *)calls = *spare; /* no fault */
}
