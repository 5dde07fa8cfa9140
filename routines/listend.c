/* A list with one hall call is walked one step too far.
   Its next pointer was never set: it is 0 without bounds, and reading through it aborts at command 5. */
struct call {
    int people;
    struct call *next;
};

struct call *first;
struct call *at;
int load;

void routine(void) {
    first = malloc(sizeof(struct call));
    first->people = 3;
    at = first;
    load = load + at->people;
    at = at->next;
    load = load + at->people; /* at is 0: aborts here */
}
