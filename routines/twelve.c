/* The register of a twelve-car site: records in a row, two words a car. The routine steps along them, adds up the loads and clears the
   last car's. There are no loops: each step is a command. All commands are done, and total is 41. */
struct car {
    int floor;
    int load;
};

struct car *cars; /* register: twelve cars */
struct car *car;
int total;

void routine(void) {
    car = cars;
    total = total + car->load;
    car = car + 1;
    total = total + car->load;
    car = car + 1;
    total = total + car->load;
    car = car + 1;
    total = total + car->load;
    car = car + 1;
    total = total + car->load;
    car = car + 1;
    total = total + car->load;
    car = car + 1;
    total = total + car->load;
    car = car + 1;
    total = total + car->load;
    car = car + 1;
    total = total + car->load;
    car = car + 1;
    total = total + car->load;
    car = car + 1;
    total = total + car->load;
    car = car + 1;
    total = total + car->load;
    car->load = 0;
}
