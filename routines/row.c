/* Three cars in a row, four words each. One added to a pointer to a car is the next car, and 4294967295, that is -1, the car before.
   All commands are done, total is 16, and the second car's floor is 6. */
struct car {
    int floor;
    int stops[2];
    int load;
};

struct car *cars;
struct car *car;
int total;

void routine(void) {
    cars = malloc(sizeof(struct car) + sizeof(struct car) + sizeof(struct car));
    car = cars;
    car->load = 5;
    car = car + 1;
    car->load = 3;
    car = car + 1;
    car->load = 8;
    total = cars->load + (cars + 1)->load + (cars + 2)->load;
    car = car + 4294967295u;
    car->floor = 6;
}
