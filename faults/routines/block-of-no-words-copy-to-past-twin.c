/* block-of-no-words-copy-to-past-twin, without the fault
   kind: block of no words
   access: copy to
   distance: past
   expected: done in edition 1, done in edition 2 */
struct pair {
    int first;
    int second;
};

struct pair *spare;
int *calls;
int *queue;
int found;

void routine(int far) {
    spare = malloc(sizeof(struct pair));
    spare->first = 5;
    spare->second = 6;
    calls = malloc(2);
    *(struct pair *)calls = *spare; /* no fault */
}
