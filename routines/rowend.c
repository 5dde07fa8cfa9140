/* Two cars in a row, walked one car too far. The step itself is allowed; the field of the car that isn't there aborts at command 4. */
struct car {
    int floor;
    int stops[2];
    int load;
};

struct car *cars;
struct car *car;

void routine(void) {
    cars = malloc(sizeof(struct car) + sizeof(struct car));
    car = cars + 1;
    car->floor = 7;
    car = car + 1;
    car->floor = 7; /* aborts here */
}
