/* For edition 2. A car's record keeps the address of its calls as an int. It is read, moved on by a word and made a pointer again.
   A cast changes nothing and an int has bounds: all commands are done. In edition 1 it has none, and the store aborts at command 4. */
struct car {
    int floor;
    int calls; /* an address */
};

struct car *car;
int *call;
int number;

void routine(void) {
    car = malloc(sizeof(struct car));
    car->calls = (int)malloc(3);
    number = 1 + car->calls; /* the bounds are those of the right operand, as the left one has none */
    call = (int *)number;
    *call = 7; /* the second call */
}
