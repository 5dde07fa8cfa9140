/* How much stack a call needs at the deepest tables: perf/stack.

   Every table has one command, over a tree that is one long path: a first node, then the same few nodes again and again, each over the one before,
   as long as there is room for 512 nodes, or for 511: some paths pass the check with one of both only. All ways to do so with up to four nodes at a
   time are tried; what passes the check is run.
   A call is made on a stack of its own that was filled before, so that the lowest byte it wrote is seen afterwards. */
#include <stdint.h>
#include <stdio.h>
#include <string.h>
#include <ucontext.h>

#include "../include/mavistable.h"

enum { NODES = 512, MEMORY = 64, LONGEST = 4, STACK = 1 << 17, FILLED = 0xa5 };

/* ---- tables */

/* One record of an int and a record *. Types: 0 int, 1 void *, 2 int *, 3 record *. Variables: x, an int; p, an int *; q, a record *; v, a void *. */
static const uint32_t declarations[] = {1, 2, 2, 0, 1, 3, 1, 2, 0, 65536, 4, 0, 2, 3, 1};
enum { X, P, Q, V, NONE, DECLARED = sizeof declarations / sizeof *declarations };

struct table {
    uint32_t words[DECLARED + 1 + 3 * (NODES + 4) + 3];
    size_t length;
    uint32_t nodes;
};

static uint32_t add(struct table *t, uint32_t kind, uint32_t a, uint32_t b) {
    const uint32_t node[] = {kind, a, b};
    memcpy(t->words + DECLARED + 1 + 3 * t->nodes, node, sizeof node);
    return t->nodes++;
}

/* A variable's value, or a constant. */
static uint32_t some_value(struct table *t, uint32_t variable) {
    return variable < NONE ? add(t, 6, add(t, 1, variable, 0), 0) : add(t, 4, 7, 0);
}

/* What may stand over node v, a letter each: a follow, the two fields, a read, an address, an allocation; casts to int, void *, int * and record *;
   v + 7, 7 + v, v + x, x + v; copies to v and from v. */
static const char letters_over[] = "*.>@&mIVPR+s[]cC";

static uint32_t over(struct table *t, char letter, uint32_t v) {
    switch (letter) {
    case '*': return add(t, 2, v, 0);
    case '.': return add(t, 3, v, 0);
    case '>': return add(t, 3, v, 1);
    case '@': return add(t, 6, v, 0);
    case '&': return add(t, 7, v, 0);
    case 'm': return add(t, 10, v, 0);
    case 'I': return add(t, 8, v, 0);
    case 'V': return add(t, 8, v, 1);
    case 'P': return add(t, 8, v, 2);
    case 'R': return add(t, 8, v, 3);
    case '+': return add(t, 5, v, some_value(t, NONE));
    case 's': return add(t, 5, some_value(t, NONE), v);
    case '[': return add(t, 5, v, some_value(t, X));
    case ']': return add(t, 5, some_value(t, X), v);
    case 'c': return add(t, 11, v, some_value(t, Q));
    default: return add(t, 11, some_value(t, Q), v);
    }
}

/* Makes the table whose path starts at a variable, or at a constant (NONE), and goes on by these letters again and again. Its command assigns the
   path's value to a variable (endings X to V), or to the path's place the value of a variable or a constant. It has at most so many nodes. Answers how
   many the path has. */
static uint32_t make(struct table *t, uint32_t first, const char *letters, uint32_t ending, uint32_t nodes) {
    uint32_t on_path = 1;
    memcpy(t->words, declarations, sizeof declarations);
    t->nodes = 0;
    uint32_t other = ending < NONE ? add(t, 1, ending, 0) : some_value(t, ending - NONE);
    uint32_t v = first < NONE ? add(t, 1, first, 0) : some_value(t, NONE);
    for (const char *next = letters;; next = next[1] ? next + 1 : letters, on_path++) {
        uint32_t before = t->nodes, node = over(t, *next, v);
        if (t->nodes > nodes) {
            t->nodes = before;
            break;
        }
        v = node;
    }
    const uint32_t command[] = {1, ending < NONE ? other : v, ending < NONE ? v : other};
    t->words[DECLARED] = t->nodes;
    memcpy(t->words + DECLARED + 1 + 3 * t->nodes, command, sizeof command);
    t->length = DECLARED + 1 + 3 * t->nodes + 3;
    return on_path;
}

/* ---- calls on a stack of their own */

static _Alignas(64) unsigned char stack[STACK];
static ucontext_t here, there;
static struct table table;

/* The stack pointer that a call began with: at its return address. Each name below notes it and goes on to the call. */
unsigned char *entered;
#define NOTED(call) __asm__(".text\nnoted_" #call ": mov %rsp, entered(%rip)\njmp mavistable_" #call "\n")
NOTED(check);
NOTED(run);
NOTED(explain);
NOTED(run_bare);
__typeof__(mavistable_check) noted_check;
__typeof__(mavistable_run) noted_run;
__typeof__(mavistable_explain) noted_explain;
__typeof__(mavistable_run_bare) noted_run_bare;

static const uint32_t inputs[] = {7, 0, 0, 0}, registers[] = {2, P, 2, 7, 7, Q, 2, 7, 7};
static uint32_t values[MEMORY], bases[MEMORY], ends[MEMORY];

static void check(void) { noted_check(table.words, table.length); }
static void run(void) { noted_run(table.words, table.length, inputs, NONE, registers, 9, values, MEMORY, bases, MEMORY, ends, MEMORY); }
static void explain(void) { noted_explain(table.words, table.length, inputs, NONE, registers, 9, values, MEMORY, bases, MEMORY, ends, MEMORY); }
static void run_bare(void) { noted_run_bare(table.words, table.length, inputs, NONE, registers, 9, values, MEMORY); }

/* How many bytes lie from the lowest one that a call wrote to its return address, which counts too. Arguments on the stack are the caller's. */
static size_t taken(void (*call)(void)) {
    memset(stack, FILLED, STACK);
    getcontext(&there);
    there.uc_stack.ss_sp = stack;
    there.uc_stack.ss_size = STACK;
    there.uc_link = &here;
    makecontext(&there, call, 0);
    swapcontext(&here, &there);
    unsigned char *lowest = stack;
    while (*lowest == FILLED)
        lowest++;
    return entered + 8 - lowest;
}

/* ---- the search */

static struct most {
    const char *name;
    void (*call)(void);
    size_t bytes;
    char letters[LONGEST + 1];
    uint32_t first, on_path;
} most[] = {{"check", check, 0, "", 0, 0}, {"run", run, 0, "", 0, 0}, {"explain", explain, 0, "", 0, 0}, {"run_bare", run_bare, 0, "", 0, 0}};
enum { CALLS = sizeof most / sizeof *most };
static unsigned tables;

static void measure(uint32_t first, const char *letters, uint32_t on_path) {
    tables++;
    for (struct most *m = most; m < most + CALLS; m++) {
        size_t bytes = taken(m->call);
        if (bytes > m->bytes) {
            m->bytes = bytes, m->first = first, m->on_path = on_path;
            strcpy(m->letters, letters);
        }
    }
}

static void measure_all(uint32_t first, const char *letters) {
    for (uint32_t nodes = NODES; nodes >= NODES - 1; nodes--)
        for (uint32_t ending = X; ending <= 2 * NONE; ending++) {
            uint32_t on_path = make(&table, first, letters, ending, nodes);
            if (!mavistable_check(table.words, table.length).refused)
                measure(first, letters, on_path);
        }
}

static void search(uint32_t first, char *letters, size_t length) {
    if (length > 0)
        measure_all(first, letters);
    if (length == LONGEST)
        return;
    for (const char *letter = letters_over; *letter; letter++) {
        letters[length] = *letter, letters[length + 1] = 0;
        search(first, letters, length + 1);
    }
    letters[length] = 0;
}

int main(void) {
    char letters[LONGEST + 1] = "";
    for (uint32_t first = X; first <= NONE; first++)
        search(first, letters, 0);
    printf("%u tables\n", tables);
    for (struct most *m = most; m < most + CALLS; m++)
        printf("%s %zu bytes, a path of %u nodes: %c%s..\n", m->name, m->bytes, m->on_path, "xpqv7"[m->first], m->letters);
    return 0;
}
