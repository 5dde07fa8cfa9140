/* A door's report is handed on as a pointer to void and used through two casts: as a record, and as ints.
   A cast from pointer to pointer keeps value and bounds. All commands are done, and code is 41. */
struct report {
    int door;
    int fault;
};

void *message;
struct report *report;
int code;

void routine(void) {
    message = malloc(sizeof(struct report));
    report = (struct report *)message;
    report->door = 2;
    report->fault = 41;
    code = ((int *)message)[1];
}
