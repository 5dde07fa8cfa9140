/* Mavistable for C and C++: checks and runs routines given as tables of 32-bit words, with the bounds of every pointer tracked, or without bounds.
   mavistable_check and mavistable_run are in libcapi.a, mavistable_explain is in libcapi_explain.a, and mavistable_run_bare is in libcapi_bare.a; each
   links without the others.
   All calls work on any words, allocate nothing, keep no state and may run on several threads.
   Stack: 6 KiB are enough for mavistable_check, 44 KiB for mavistable_run, 46 KiB for mavistable_explain and 30 KiB for mavistable_run_bare, whatever the
   table. On x86-64 they took 5,736, 44,144, 46,608 and 25,872 bytes at the deepest tables. A run has at most one call open for each node on a path
   downwards, and no path has more than 512 nodes: there are no more, and a node's children have smaller numbers than it has. */
#ifndef MAVISTABLE_H
#define MAVISTABLE_H

#include <stddef.h>
#include <stdint.h>

#ifdef __cplusplus
extern "C" {
#endif

/* The verdict on a table. */
struct mavistable_verdict {
    uint32_t refused; /* 0: the table passes; 1: it is refused */
    uint32_t number;  /* refused: the number of the refusal, 1 to 9 or 16; else 0 */
    size_t place;     /* refused: the place of the word at fault; else 0 */
};

enum mavistable_ending {
    MAVISTABLE_REFUSED = 0, /* nothing was run, and no word of the lists was changed */
    MAVISTABLE_DONE = 1,    /* all commands were done */
    MAVISTABLE_ABORT = 2,   /* a bounds check was not passed */
    MAVISTABLE_NOROOM = 3,  /* an allocation did not fit in the lists */
    MAVISTABLE_STUCK = 4    /* of a bare run alone: word 0 or a word outside the list was to be read or assigned */
};

/* How a call ended. What an ending does not tell is 0. */
struct mavistable_answer {
    uint32_t ending;  /* one of enum mavistable_ending */
    uint32_t number;  /* refused: the number of the refusal, 1 to 11 or 13 to 16 */
    size_t place;     /* refused: its place */
    uint32_t command; /* abort, no room, stuck: the number of the command, from 0 */
    uint32_t unused;  /* done, abort, no room, stuck: the first word of the lists that was never handed out */
};

/* How an explained call ended, and why it aborted if it did. What an ending does not tell is 0; reason 0: the run did not abort. */
struct mavistable_explanation {
    uint32_t ending;  /* ending, number, place, command and unused as in struct mavistable_answer */
    uint32_t number;
    size_t place;
    uint32_t command;
    uint32_t unused;
    uint32_t node;    /* abort: the node, a follow, a field or a copy, whose bounds check was the first that was not passed */
    uint32_t words;   /* abort: how many words it wanted */
    uint64_t wanted;  /* abort: the first of them; the exact sum, which can exceed 32 bits */
    uint32_t base;    /* abort: the bounds [base, end) of the pointer followed, both 0 if it had none */
    uint32_t end;
    uint32_t reason;  /* abort: one of enum mavistable_reason, the lowest that applies */
    uint32_t first;   /* abort: the first word of the variable, register or block in which the bounds lie; 0 without bounds */
};

enum mavistable_reason {
    MAVISTABLE_NO_BOUNDS = 1,   /* base and end are 0 */
    MAVISTABLE_BEFORE_BASE = 2, /* wanted < base */
    MAVISTABLE_PAST_END = 3     /* end < wanted + words */
};

/* Checks a table of `length` words.
   The caller owes: `table` points to `length` readable words (for length 0 it is any pointer but NULL). */
struct mavistable_verdict mavistable_check(const uint32_t *table, size_t length);

/* Checks a table and the other arguments, clears the three lists, sets the variables to the inputs, hands in the registers and runs the
   commands.
   The lists are the memory: word i has the value values[i] and the bounds [bases[i], ends[i]), none if both are 0.
   Lists of differing length, or of a length that does not fit, are refused and left as they are.
   Registers are arrays for the routine to work on: their count (at most 16), then for each the number of a pointer variable, a length n
   and n words. Each becomes a block of memory after the variables, and its variable starts at it, with its bounds; with n = 0 it
   starts as 0. Without registers the list is the one word 0. What the routine leaves of a register stands in values.
   A number n added to a pointer to a record moves it by n records; added to anything else it counts words. Both wrap at 32 bits.
   A table that starts with the words 4294967295 and 2 is of edition 2, in which ints have bounds too (docs/TABLE.md, Editions).
   The caller owes: each pointer points to as many words as its length says (readable; those of the three lists writable too),
   none is NULL, and no list of the three overlaps another one or the table, the inputs or the registers. */
struct mavistable_answer mavistable_run(const uint32_t *table, size_t table_length, const uint32_t *inputs, size_t input_count,
                                        const uint32_t *registers, size_t registers_length, uint32_t *values, size_t values_length,
                                        uint32_t *bases, size_t bases_length, uint32_t *ends, size_t ends_length);

/* Does what mavistable_run does, with the same lists left and the same answer, and tells why the run aborted if it did. An abort whose bounds
   lie in a block that the routine obtained costs a second run, to find where that block starts. The caller owes the same. */
struct mavistable_explanation mavistable_explain(const uint32_t *table, size_t table_length, const uint32_t *inputs, size_t input_count,
                                                 const uint32_t *registers, size_t registers_length, uint32_t *values,
                                                 size_t values_length, uint32_t *bases, size_t bases_length, uint32_t *ends,
                                                 size_t ends_length);

/* Checks and runs a table as mavistable_run does, but without bounds, as old controllers do. The memory is one list, the values. Nothing is checked:
   every word of the list but word 0 can be read and assigned, also those that were never handed out. Where the run reads or assigns word 0 or a
   word outside the list, it is stuck: it stops there, and what it wrote before stays. A copy that is stuck writes nothing. All sums wrap at
   32 bits, and an allocation clears its words. The ending is never MAVISTABLE_ABORT.
   Where mavistable_run, with lists of the same length, ends as MAVISTABLE_DONE or MAVISTABLE_NOROOM, this call has the same answer and leaves the same
   values. Where that one aborts, nothing is said of this one. It is refused as mavistable_run with three lists of this length would be.
   The caller owes: each pointer points to as many words as its length says (readable; those of values writable too), none is NULL, and
   values does not overlap the table, the inputs or the registers. */
struct mavistable_answer mavistable_run_bare(const uint32_t *table, size_t table_length, const uint32_t *inputs, size_t input_count,
                                             const uint32_t *registers, size_t registers_length, uint32_t *values, size_t values_length);

#ifdef __cplusplus
}
#endif

#endif
