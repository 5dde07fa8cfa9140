/* Calls a routine once: caller FAR. FAR is a number, `queue` or `top`: the words that lead there from `calls`. REGISTERS says which are handed in: 0
   none, 1 each in a block of its own, 2 in a row. Ends with status 0 unless something stops it. */
#include <limits.h>
#include <stdio.h>
#include <stdlib.h>
#include <string.h>
#include <sys/wait.h>
#include <unistd.h>

enum { NO_REHEARSAL = 97, LAYOUT_CHANGED = 98 };

extern long *calls, *queue, found;
void routine(long far);

#if REGISTERS
extern long *hall, *door;

static const long words[] = {1, 2, 3, 7, 8};
static long in_a_row[3 + 5 + 3]; /* lists of the caller's own stand before and behind them */

static long *apart(const long *from, size_t count) {
    long *block = malloc(count * sizeof *block);
    if (!block) abort();
    return memcpy(block, from, count * sizeof *block);
}

static void hand_in(void) {
    if (REGISTERS == 1) {
        hall = apart(words, 3);
        door = apart(words + 3, 2);
    } else {
        memcpy(in_a_row + 3, words, sizeof words);
        hall = in_a_row + 3;
        door = in_a_row + 6;
    }
}
#else
static void hand_in(void) {}
#endif

/* How many words it is from `calls`, once the routine has set it, to the queue, or to the last word of the address space. */
static long distance(int to_queue) {
    long there = to_queue ? (long)queue : -(long)sizeof(long);
    return (there - (long)calls) / (long)sizeof(long);
}

/* The routine is run in a child first, with 0 for far, which is within bounds: its objects have the places there that they will have here. */
static long rehearse(int to_queue) {
    int ends[2];
    long found_there;
    if (pipe(ends)) exit(NO_REHEARSAL);
    pid_t child = fork();
    if (child == 0) {
        routine(0);
        found_there = distance(to_queue);
        _exit(write(ends[1], &found_there, sizeof found_there) != sizeof found_there);
    }
    close(ends[1]);
    if (child < 0 || read(ends[0], &found_there, sizeof found_there) != sizeof found_there) exit(NO_REHEARSAL);
    waitpid(child, NULL, 0);
    return found_there;
}

int main(int count, char **arguments) {
    const char *told = count == 2 ? arguments[1] : "0";
    int to_queue = !strcmp(told, "queue"), aimed = to_queue || !strcmp(told, "top");
    hand_in();
    long far = aimed ? rehearse(to_queue) : strtol(told, NULL, 10);
    routine(far);
    if (aimed && distance(to_queue) != far) return LAYOUT_CHANGED;
    if (found == LONG_MAX) puts("a word that was read is looked at, so that a tool can say that it was never set");
    return 0;
}
