/* cast-to-a-larger-record-write-past-twin, without the fault
   kind: cast to a larger record
   access: write
   distance: past
   expected: done in edition 1, done in edition 2 */
struct small {
    int first;
    int second;
};
struct large {
    int first;
    int second;
    int third;
};

struct small *small;
struct large *large;
struct small *less;
struct large *more;
int *calls;
int *queue;
int found;

void routine(int far) {
    small = malloc(sizeof(struct small));
    small->first = 1;
    small->second = 2;
    less = malloc(sizeof(struct small));
    more = malloc(sizeof(struct large));
    more->third = 3;
    large = (struct large *)small;
    large->second = 9; /* no fault */
}
