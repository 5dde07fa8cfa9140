/* cast-to-a-larger-record-copy-from-past
   kind: cast to a larger record
   access: copy from
   distance: past
   expected: abort in edition 1, abort in edition 2 */
struct small {
    int first;
    int second;
};
struct large {
    int first;
    int second;
    int third;
};

struct small *small;
struct large *large;
struct small *less;
struct large *more;
int *calls;
int *queue;
int found;

void routine(int far) {
    small = malloc(sizeof(struct small));
    small->first = 1;
    small->second = 2;
    less = malloc(sizeof(struct small));
    more = malloc(sizeof(struct large));
    more->third = 3;
    large = (struct large *)small;
    *more = *large; /* fault */
}
