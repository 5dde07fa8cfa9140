/* Runs a routine and prints how it ended and the memory it left, as the bench program does: routine FILE [REGISTERS]
   FILE holds the memory's length, the number of inputs, the inputs and the table. REGISTERS holds a list of registers: their count, then for
   each a variable, a length and that many words. Both are decimal numbers below 4,294,967,296, parted by spaces or line ends. Anything
   else, and what is above the limits of the bench program, prints `input`. */
#include <inttypes.h>
#include <stdbool.h>
#include <stdio.h>
#include <stdlib.h>

#include "mavistable.h"

/* The limits of the bench program. A list of registers may be of any length: one that does not fit in the memory is refused. */
enum { MEMORY = 4096, INPUTS = 64, TABLE = 2472 };

static uint32_t values[MEMORY], bases[MEMORY], ends[MEMORY];

struct list {
    uint32_t *words;
    size_t count, room;
};

static void fail(const char *what) {
    perror(what);
    exit(1);
}

static void make_room(struct list *list, size_t room) {
    list->words = realloc(list->words, room * sizeof *list->words);
    if (!list->words) fail("no room for the numbers");
    list->room = room;
}

static void append(struct list *list, uint32_t word) {
    if (list->count == list->room) make_room(list, 2 * list->room + 64);
    list->words[list->count++] = word;
}

/* Adds a digit to a number; false where the byte is no digit, or the number has become too large. */
static bool take_digit(uint32_t *number, int byte) {
    if (byte < '0' || byte > '9') return false;
    uint64_t next = UINT64_C(10) * *number + (uint64_t)(byte - '0');
    *number = (uint32_t)next;
    return next <= UINT32_MAX;
}

/* Reads the numbers of a file; false where it has anything else. */
static bool scan(FILE *file, struct list *list) {
    bool within = false; /* a number has begun and not ended */
    uint32_t number = 0;
    for (int byte; (byte = getc(file)) != EOF;) {
        if (byte != ' ' && byte != '\n') {
            if (!take_digit(&number, byte)) return false;
            within = true;
        } else if (within) {
            append(list, number);
            within = false;
            number = 0;
        }
    }
    if (within) append(list, number);
    return true;
}

/* The same for the file of a name. One that cannot be read ends the program. */
static bool read_list(const char *name, struct list *list) {
    FILE *file = fopen(name, "rb");
    if (!file) fail(name);
    make_room(list, 64); /* the library takes no NULL, even for a list of no words */
    bool good = scan(file, list);
    if (ferror(file)) fail(name);
    fclose(file);
    return good;
}

static bool within_limits(const struct list *text) {
    if (text->count < 2) return false;
    size_t memory = text->words[0], inputs = text->words[1], rest = text->count - 2;
    return memory <= MEMORY && inputs <= INPUTS && inputs <= rest && rest - inputs <= TABLE;
}

static struct mavistable_answer run(const struct list *text, const struct list *registers) {
    size_t memory = text->words[0], inputs = text->words[1], rest = text->count - 2;
    const uint32_t *first = text->words + 2;
    return mavistable_run(first + inputs, rest - inputs, first, inputs, registers->words, registers->count, values, memory, bases, memory,
                          ends, memory);
}

static void print_memory(uint32_t unused) {
    for (uint32_t w = 1; w < unused; w++)
        printf("%" PRIu32 " %" PRIu32 " %" PRIu32 " %" PRIu32 "\n", w, values[w], bases[w], ends[w]);
}

static void print_answer(struct mavistable_answer answer) {
    switch (answer.ending) {
    case MAVISTABLE_REFUSED: printf("refused %" PRIu32 " %zu\n", answer.number, answer.place); return;
    case MAVISTABLE_DONE: printf("done %" PRIu32 "\n", answer.unused); break;
    case MAVISTABLE_ABORT: printf("abort %" PRIu32 " %" PRIu32 "\n", answer.command, answer.unused); break;
    case MAVISTABLE_NOROOM: printf("noroom %" PRIu32 " %" PRIu32 "\n", answer.command, answer.unused); break;
    }
    print_memory(answer.unused);
}

int main(int argc, char **argv) {
    if (argc < 2 || argc > 3) {
        fprintf(stderr, "usage: routine FILE [REGISTERS]\n");
        return 1;
    }
    struct list text = {0}, registers = {0};
    bool good = read_list(argv[1], &text);
    if (argc == 3)
        good = read_list(argv[2], &registers) && good;
    else
        append(&registers, 0); /* the list 0: no registers */
    if (good && within_limits(&text))
        print_answer(run(&text, &registers));
    else
        puts("input");
    free(text.words);
    free(registers.words);
    return 0;
}
