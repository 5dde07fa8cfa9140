/* Three hall calls in a linked list; the people who wait are added up.
   There are no loops: each step of the walk is a command. All commands are done, and load is 6. */
struct call {
    int people;
    struct call *next;
};

struct call *first;
struct call *at;
int load;

void routine(void) {
    first = malloc(sizeof(struct call));
    first->people = 3;
    first->next = malloc(sizeof(struct call));
    at = first->next;
    at->people = 1;
    at->next = malloc(sizeof(struct call));
    at = at->next;
    at->people = 2;

    at = first;
    load = load + at->people;
    at = at->next;
    load = load + at->people;
    at = at->next;
    load = load + at->people;
    at = at->next; /* 0, the end of the list */
}
