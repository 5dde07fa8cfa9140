/* A register of car positions is handed in as words, and read as records: two words a car.
   The loads are added up, and the second car's is cleared. All commands are done, and total is 7. */
struct car {
    int floor;
    int load;
};

int *positions; /* register: two cars */
struct car *car;
int total;

void routine(void) {
    car = (struct car *)positions;
    total = car->load;
    car = (struct car *)(positions + 2);
    total = total + car->load;
    car->load = 0;
}
