"""Refusals in words: each condition of docs/TABLE.md, damaged tables, and the line that a dropped or doubled word is looked for in."""

import collections
import random
import re
import tempfile
import unittest
from pathlib import Path

from support import MACHINE, ROOT, mavis

from workbench.faults import table_fault
from workbench.hint import hint
from workbench.source import Source
from workbench.table import WORD, Table, spot
from workbench.text import read_text

# A table, where the word at fault stands, what is wrong with it and what would fit.
FAULTS = [
    # refused 1 3
    ("0 0 0",
     "section 4 (variables), its count",
     "the table has 3 words and ends before the count of section 4 (variables)",
     "the count of section 4, then sections 5 and 6; a section without entries is the word 0"),
    # refused 1 5
    ("0 0 0 2 0",
     "section 4 (variables), entry 1",
     "the count of section 4 (variables) is 2, and the table ends after 1 entry",
     "1 more word of section 4, then sections 5 and 6"),
    # refused 2 6
    ("0 0 0 0 0 0 5 5",
     "after section 6, the last one",
     "2 words follow section 6 (commands), whose count, at place 5, is 0",
     "nothing after section 6, or a count of 1 at place 5"),
    # refused 3 1
    ("0 129",
     "section 2 (fields), its count",
     "the count is 129, and section 2 (fields) has at most 128 entries",
     "at most 128"),
    # refused 4 1
    ("1 0 0 0 0 0 0",
     "section 1 (records), entry 0",
     "record 0 has 0 fields",
     "at least 1"),
    # refused 4 2
    ("1 2 1 0 1 0 0 0 0",
     "section 2 (fields), its count",
     "the records of section 1 have 2 fields together, and the count of section 2 is 1",
     "a count of 2, or records that have 1 field together"),
    # refused 4 4
    ("1 1 1 0 4097 0 0 0 0",
     "section 2 (fields), entry 0, its count of words",
     "field 0 of record 0 has 4097 words",
     "from 1 to 4096"),
    # refused 5 3
    ("1 1 1 2 1 0 0 0 0",
     "section 2 (fields), entry 0, its type",
     "type 2 is unknown: section 3 has 0 entries, and the last type is 1",
     "a type from 0 to 1: 0 is int, 1 is void *"),
    # refused 5 3
    ("0 0 1 65536 0 0 0",
     "section 3 (pointers), entry 0",
     "65536 is record 0, and section 1 has 0 records",
     "a type from 0 to 2"),
    # refused 5 7
    ("1 1 1 0 1 0 1 65536 0 0",
     "section 4 (variables), entry 0",
     "65536 is record 0, and a record is not a type",
     "an entry of section 3 with target 65536: type 2 would be record 0 *; or a type from 0 to 1: 0 is int, 1 is void *"),
    # refused 5 10
    ("0 0 0 0 2 4 7 0 8 0 2 0",
     "section 5 (nodes), entry 1, its b",
     "type 2 is unknown: section 3 has 0 entries, and the last type is 1",
     "a type from 0 to 1: 0 is int, 1 is void *"),
    # refused 5 6
    ("0 0 0 0 1 9 2 0 0",
     "section 5 (nodes), entry 0, its a",
     "type 2 is unknown: section 3 has 0 entries, and the last type is 1",
     "a type from 0 to 1: 0 is int, 1 is void *"),
    # refused 6 4
    ("0 0 2 1 1 0 0 0",
     "section 3 (pointers), entry 1",
     "entry 1 has target 1 (void *), and so has entry 0",
     "another target; type 2 is the pointer to void * already"),
    # refused 7 5
    ("0 0 0 0 1 99 0 0 0",
     "section 5 (nodes), entry 0, its kind",
     "kind 99 is unknown",
     "a kind from 1 to 11 (1 variable, 2 follow, 3 field, 4 constant, 5 sum, 6 read, 7 address, 8 cast, 9 size, 10 malloc and 11 copy)"),
    # refused 7 6
    ("0 0 0 0 1 1 0 0 0",
     "section 5 (nodes), entry 0, its a",
     "there is no variable 0: section 4 has 0 variables",
     "a variable in section 4"),
    # refused 7 6
    ("0 0 0 0 1 10 0 0 0",
     "section 5 (nodes), entry 0, its a",
     "child 0 is not below node 0",
     "a kind without a child, as no node is below this one: 1, 4 or 9"),
    # refused 7 9
    ("0 0 0 0 2 4 7 0 6 0 0 0",
     "section 5 (nodes), entry 1, its a",
     "node 0 is a value (a constant, 7), and kind 6 (read) takes a place as a",
     "a place: a node of kind 1, 2 or 3"),
    # refused 7 10
    ("0 0 0 1 0 2 1 0 0 10 0 0 0",
     "section 5 (nodes), entry 1, its a",
     "node 0 is a place (variable 0), and kind 10 (malloc) takes a value as a",
     "a value: a read (kind 6) of node 0"),
    # refused 7 13
    ("0 0 0 0 3 4 7 0 4 1 0 5 0 2 0",
     "section 5 (nodes), entry 2, its b",
     "child 2 is not below node 2",
     "a node below 2 that is a value"),
    # refused 7 7
    ("0 0 0 0 1 4 7 1 0",
     "section 5 (nodes), entry 0, its b",
     "b is 1, and kind 4 (constant) has no b",
     "0"),
    # refused 7 6
    ("0 0 0 0 0 1 0 0",
     "section 6 (commands), entry 0, its place node",
     "there is no node 0: section 5 has 0 nodes",
     "a place in section 5"),
    # refused 7 13
    ("0 0 0 1 0 2 1 0 0 4 7 0 1 1 0",
     "section 6 (commands), entry 0, its place node",
     "node 1 is a value (a constant, 7), and the first word of a command is a place",
     "a place: a node of kind 1, 2 or 3"),
    # refused 8 8
    ("0 0 0 0 2 4 7 0 2 0 0 0",
     "section 5 (nodes), entry 1, its kind",
     "node 0 (a constant, 7) is an int, and kind 2 follows a pointer to a type",
     "a pointer to a type; section 3 has none (an entry with target 0 would be int *)"),
    # refused 8 22
    ("1 2 2 0 2 0 2 3 65536 0 3 3 2 3 0 3 1 0 0 6 0 0 2 1 0 0",
     "section 5 (nodes), entry 2, its kind",
     "node 1 (a read of node 0) is a record 0 *, and kind 2 follows a pointer to a type",
     "kind 3, for a field of the record"),
    # refused 8 22
    ("1 2 2 0 2 0 2 3 65536 0 3 3 2 3 0 3 1 1 0 6 0 0 3 1 0 0",
     "section 5 (nodes), entry 2, its kind",
     "node 1 (a read of node 0) is an int *, and kind 3 takes a field by a pointer to a record",
     "a pointer to a record: a cast (kind 8) of node 1 to type 2 (record 0 *)"),
    # refused 8 22
    ("1 2 2 0 2 0 2 3 65536 0 3 3 2 3 0 3 1 0 0 6 0 0 3 1 2 0",
     "section 5 (nodes), entry 2, its kind",
     "field 2: record 0 has 2 fields",
     "a field from 0 to 1"),
    # refused 8 25
    ("1 2 2 0 2 0 2 3 65536 0 3 3 2 3 0 5 4 1 0 1 1 0 6 1 0 5 0 2 4 0 0 0",
     "section 5 (nodes), entry 3, its kind",
     "node 2 (a read of node 1) is an int *, and kind 5 adds an int to its a",
     "the pointer as a and the int as b: 5 2 0"),
    # refused 8 22
    ("1 2 2 0 2 0 2 3 65536 0 3 3 2 3 0 3 1 1 0 6 0 0 10 1 0 0",
     "section 5 (nodes), entry 2, its kind",
     "node 1 (a read of node 0) is an int *, and kind 10 takes an int, the number of words",
     "an int: a cast (kind 8) of node 1 to type 0 (int)"),
    # refused 8 19
    ("1 2 2 0 2 0 2 3 65536 0 3 3 2 3 0 2 1 0 0 7 0 0 0",
     "section 5 (nodes), entry 1, its kind",
     "the place, node 0 (variable 0), is a record 0 *, and section 3 has no pointer to that",
     "an entry of section 3 with target 2: type 5 would be record 0 **"),
    # refused 8 28
    ("1 2 2 0 2 0 2 3 65536 0 3 3 2 3 0 5 1 0 0 6 0 0 1 1 0 6 2 0 11 1 3 0",
     "section 5 (nodes), entry 4, its kind",
     "a, node 1 (a read of node 0), is a record 0 *, and b, node 3 (a read of node 2), is an int *; "
     "kind 11 copies between two pointers to one record",
     "two pointers to one record: a cast (kind 8) of node 3 to type 2 (record 0 *)"),
    # refused 8 28
    ("1 2 2 0 2 0 2 3 65536 0 3 3 2 3 0 5 1 1 0 6 0 0 1 0 0 6 2 0 11 1 3 0",
     "section 5 (nodes), entry 4, its kind",
     "a, node 1 (a read of node 0), is an int *, and b, node 3 (a read of node 2), is a record 0 *; "
     "kind 11 copies between two pointers to one record",
     "two pointers to one record: a cast (kind 8) of node 1 to type 2 (record 0 *)"),
    # refused 8 28
    ("1 2 2 0 2 0 2 3 65536 0 3 3 2 3 0 5 1 1 0 6 0 0 1 1 0 6 2 0 11 1 3 0",
     "section 5 (nodes), entry 4, its kind",
     "a, node 1 (a read of node 0), is an int *, and b, node 3 (a read of node 2), is an int *; "
     "kind 11 copies between two pointers to one record",
     "two pointers to one record: casts (kind 8) of node 1 and node 3 to type 2 (record 0 *)"),
    # refused 8 25
    ("1 2 2 0 2 0 2 3 65536 0 3 3 2 3 0 4 1 0 0 6 0 0 4 7 0 11 1 2 0",
     "section 5 (nodes), entry 3, its kind",
     "a, node 1 (a read of node 0), is a record 0 *, and b, node 2 (a constant, 7), is an int; "
     "kind 11 copies between two pointers to one record",
     "two pointers to one record, such as type 2 (record 0 *)"),
    # refused 8 15
    ("0 0 0 1 1 4 1 0 0 6 0 0 4 7 0 11 1 2 0",
     "section 5 (nodes), entry 3, its kind",
     "a, node 1 (a read of node 0), is a void *, and b, node 2 (a constant, 7), is an int; kind 11 copies between two pointers to one record",
     "two pointers to one record; section 3 has none (its target would be 65536 + a record)"),
    # refused 8 27
    ("2 1 1 2 0 1 0 1 2 65536 65537 2 2 3 5 1 0 0 6 0 0 1 1 0 6 2 0 11 1 3 0",
     "section 5 (nodes), entry 4, its kind",
     "a, node 1 (a read of node 0), is a record 0 *, and b, node 3 (a read of node 2), is a record 1 *; "
     "kind 11 copies between two pointers to one record",
     "two pointers to one record: a cast (kind 8) of node 3 to type 2 (record 0 *)"),
    # refused 7 6
    ("0 0 0 0 1 11 0 0 0",
     "section 5 (nodes), entry 0, its a",
     "child 0 is not below node 0",
     "a kind without a child, as no node is below this one: 1, 4 or 9"),
    # refused 7 18
    ("1 1 1 0 1 1 65536 1 2 3 1 0 0 6 0 0 11 1 2 0",
     "section 5 (nodes), entry 2, its b",
     "child 2 is not below node 2",
     "a node below 2 that is a value"),
    # refused 8 13
    ("0 0 0 1 1 2 1 0 0 4 7 0 1 0 1",
     "section 6 (commands), entry 0, its place node",
     "the place, node 0 (variable 0), is a void *, and the value, node 1 (a constant, 7), is an int",
     "a value of type void *: a cast (kind 8) of node 1 to type 1"),
    # refused 9 5
    ("0 0 0 0 1 4 7 0 0",
     "section 5 (nodes), entry 0, its kind",
     "node 0 (a constant, 7) is used by nothing",
     "one use, by a node above it or by a command"),
    # refused 9 6
    ("0 0 0 1 0 2 1 0 0 4 7 0 2 0 1 0 1",
     "section 5 (nodes), entry 0, its kind",
     "node 0 (variable 0) is used twice, by command 0 and by command 1",
     "one use; a further one needs a copy of the node"),
    # refused 9 5
    ("0 0 0 0 2 4 7 0 5 0 0 0",
     "section 5 (nodes), entry 0, its kind",
     "node 0 (a constant, 7) is used twice, by node 1 as a and as b",
     "one use; a further one needs a copy of the node"),
]  # fmt: skip

# The same of tables that begin with the mark.
MARKED = [
    # refused 1 1
    ("4294967295",
     "before section 1, the edition",
     "the table has 1 word, the mark 4294967295, and ends before the edition",
     "2, then the six sections"),
    # refused 1 2
    ("4294967295 2",
     "section 1 (records), its count",
     "the table has 2 words and ends before the count of section 1 (records)",
     "the count of section 1, then sections 2, 3, 4, 5 and 6; a section without entries is the word 0"),
    # refused 3 2
    ("4294967295 2 4294967295",
     "section 1 (records), its count",
     "the count is 4294967295, and section 1 (records) has at most 32 entries",
     "at most 32"),
    # refused 16 1
    ("4294967295 3",
     "before section 1, the edition",
     "3 follows the mark 4294967295, and there is no edition 3",
     "2; or neither of the two words, for edition 1"),
    # refused 16 1
    ("4294967295 1 0 0 0 0 0 0",
     "before section 1, the edition",
     "1 follows the mark 4294967295, and a table of edition 1 has no mark",
     "2; or neither of the two words, for edition 1"),
    # refused 16 1
    ("4294967295 4294967295 2 0 0 0 0 0 0",
     "before section 1, the edition",
     "4294967295 follows the mark 4294967295, and there is no edition 4294967295",
     "2; or neither of the two words, for edition 1"),
]  # fmt: skip

# Tables in which an int stands where a pointer is wanted: the node at fault, and what would fit in edition 1 and in edition 2, where the int can
# have bounds. All have the declarations of docs/TABLE.md's examples: type 2 is record 0 *, type 3 int *, variable 2 an int.
INTS = [
    ("3 1 2 0 6 0 0 2 1 0",
     "a pointer to a type",
     "a pointer to a type: a cast (kind 8) of node 1 to type 3 (int *)"),
    ("3 1 2 0 6 0 0 3 1 0",
     "a pointer to a record",
     "a pointer to a record: a cast (kind 8) of node 1 to type 2 (record 0 *)"),
    ("2 4 7 0 2 0 0",
     "a pointer to a type",
     "a pointer to a type"),
    ("2 9 0 0 3 0 0",
     "a pointer to a record",
     "a pointer to a record"),
    ("5 1 0 0 6 0 0 1 2 0 6 2 0 11 1 3",
     "two pointers to one record, such as type 2 (record 0 *)",
     "two pointers to one record: a cast (kind 8) of node 3 to type 2 (record 0 *)"),
    ("5 1 2 0 6 0 0 1 1 0 6 2 0 11 1 3",
     "two pointers to one record, such as type 2 (record 0 *)",
     "two pointers to one record: casts (kind 8) of node 1 and node 3 to type 2 (record 0 *)"),
    ("4 1 2 0 6 0 0 4 7 0 11 1 2",
     "two pointers to one record, such as type 2 (record 0 *)",
     "two pointers to one record, such as type 2 (record 0 *)"),
]  # fmt: skip
DECLARATIONS = "1 2 2 0 2 0 2 3 65536 0 3 3 2 3 0"
MARK = "4294967295 2"
NUMBERS = {*range(1, 10), 16}  # of the refusals that go by the table alone


def numbers(text):
    return [int(word) for word in text.split()]


def verdicts(tables):
    """For each table None, or the number and place of its refusal."""
    answers = MACHINE.ask([" ".join(map(str, [1, 0, 0, 0, 0, 0, 0, 0, len(words), *words])) for words in tables])
    return [None if answer == "pass" else tuple(int(word) for word in answer.split()[1:]) for answer in answers]


def damaged(rng, words):
    """A table with one to three words dropped, doubled, changed or swapped."""
    words = list(words)
    for _ in range(rng.randint(1, 3)):
        at, other = rng.randrange(len(words)), rng.randrange(len(words))
        change = rng.randrange(4)
        if change == 0 and len(words) > 1:
            del words[at]
        elif change == 1:
            words.insert(at, words[at])
        elif change == 2:
            words[at] = rng.choice([0, 1, 2, 3, rng.randrange(12), rng.randrange(100), 65536, 65537, WORD - 1, words[other]])
        else:
            words[at], words[other] = words[other], words[at]
    return words


def texts():
    return [path.read_text() for path in sorted(ROOT.glob("routines/*.txt")) if path.stem != "nocast"]


def marked(words):
    """What is said of a table's places and of its length where the mark and the edition stand before it."""
    return re.sub(r"(?<=at place )\d+|(?<=the table has )\d+", lambda number: str(int(number[0]) + 2), words)


class Refusals(unittest.TestCase):
    def check_faults(self, faults):
        answers = verdicts([numbers(table) for table, *_ in faults])
        for (table, where, wrong, fits), (number, place) in zip(faults, answers):
            with self.subTest(table):
                fault = table_fault(numbers(table), number, place)
                self.assertEqual((str(spot(numbers(table), place)), fault.wrong, fault.fits), (where, wrong, fits))

    def test_each_condition(self):
        self.check_faults(FAULTS + MARKED)

    def test_each_condition_behind_the_mark(self):
        """The same words, of places that are two further on."""
        self.check_faults([(f"{MARK} {table}", where, marked(wrong), marked(fits)) for table, where, wrong, fits in FAULTS])
        plain, behind = (verdicts([numbers(head + table) for table, *_ in FAULTS]) for head in ("", f"{MARK} "))
        self.assertEqual([(number, place + 2) for number, place in plain], behind)

    def test_ints_for_pointers(self):
        """A cast is proposed where it can have bounds."""
        for nodes, *both in INTS:
            for head, fits in zip(("", MARK), both):
                with self.subTest(nodes, head=head):
                    table = numbers(f"{head} {DECLARATIONS} {nodes} 0")
                    ((number, place),) = verdicts([table])
                    self.assertEqual((number, table_fault(table, number, place).fits), (8, fits))

    def test_all_numbers_are_among_them(self):
        self.assertEqual({number for number, _ in verdicts([numbers(table) for table, *_ in FAULTS + MARKED])}, NUMBERS)

    def test_damaged_tables_have_words(self):
        rng = random.Random(17)
        tables = [read_text(Source("routine", text)).words for text in texts()]
        cases = [damaged(rng, rng.choice(tables)) for _ in range(6000)]
        seen = collections.Counter()
        for words, verdict in zip(cases, verdicts(cases)):
            if verdict:
                seen[verdict[0]] += 1
                self.check_words(words, *verdict)
        self.assertEqual(set(seen), NUMBERS)

    def check_words(self, words, number, place):
        """That what is said of a damaged table is so, as far as the numbers in it tell."""
        fault, at = table_fault(words, number, place), spot(words, place)
        self.assertTrue(fault.title and fault.wrong and fault.fits)
        if number in (1, 2, 3, 16):
            self.assertEqual(place, len(words) if number == 1 else place)
            return
        if at.entry is None:
            self.assertEqual((number, at.section.number), (4, 2))
        elif number == 9:
            table = Table.of(words)
            used = [n for n in range(len(table.nodes)) for child in table.children(n) if child == at.entry]
            used += [c for c, command in enumerate(table.commands) for child in command if child == at.entry]
            told = "nothing" if not used else "twice" if len(used) == 2 else f"{len(used)} times"
            self.assertIn(told, fault.wrong)
        elif number == 7 and "child" in fault.wrong:
            self.assertGreaterEqual(words[place], at.entry)

    def test_dropped_and_doubled_words_are_found(self):
        """Of all texts with one word dropped or doubled most are told the very line, and one in a hundred a line near it."""
        told = collections.Counter()
        for text in texts():
            cases = list(one_word_off(text))
            made = [read_text(Source("routine.txt", changed)) for _, changed in cases]
            for (line, _), changed, verdict in zip(cases, made, verdicts([text.words for text in made])):
                if verdict:
                    said = hint(changed, verdict[1])
                    told["none" if said is None else "right" if f"line {line}," in said else "wrong"] += 1
        self.assertGreater(told["right"] / sum(told.values()), 0.88, told)
        self.assertLess(told["wrong"] / sum(told.values()), 0.012, told)

    def test_texts_broken_at_will_have_no_hint(self):
        rng = random.Random(4)
        for text in texts():
            words = text.split()
            del words[rng.randrange(3, len(words))]
            wide = rng.randrange(9, 23)
            lines = [" ".join(words[at : at + wide]) for at in range(0, len(words), wide)]
            changed = read_text(Source("routine.txt", "\n".join(lines)))
            self.assertIsNone(hint(changed, len(changed.words) - 1))

    def test_texts_without_sections_have_no_hint(self):
        for table in ("", "4294967295", "4294967295 2", "4294967295\n2\n", "4294967295 3\n0\n0\n"):
            with self.subTest(table):
                text = read_text(Source("routine.txt", f"1\n0\n{table}"))
                self.assertIsNone(hint(text, min(1, len(text.words))))


def one_word_off(text):
    """The text with each of its table's words dropped, and doubled, with the line it is in."""
    for span in read_text(Source("routine.txt", text)).spans:
        yield span.line, text[: span.start] + text[span.end :]
        yield span.line, text[: span.start] + span.text + " " + text[span.start :]


class Calls(unittest.TestCase):
    """Refusals by a call's memory, inputs and registers."""

    def told(self, *arguments):
        status, output, error = mavis("run", *arguments)
        self.assertEqual((status, error), (3, ""))
        return output

    def test_of_c(self):
        self.assertEqual(
            self.told("routines/beyond.c", "--memory", "2"),
            "routines/beyond.c: refused 10, place 0: the memory is too short or too long\n  where: the memory's length\n"
            "  wrong: the memory has 2 words, and the routine has 2 variables\n  fits:  from 3 to 65536 words\n",
        )
        self.assertEqual(
            self.told("routines/beyond.c", "--memory", "7", "--register", "calls=7,12,4", "faults=21,1"),
            "routines/beyond.c: refused 15, place 7: the registers do not fit\n"
            "  where: the list of registers, place 7: the length of the register of faults\n"
            "  wrong: with the register of faults, words up to 7 are needed, and the memory has 7 words\n  fits:  a memory of 8 words or more\n",
        )

    def test_of_texts(self):
        for text, first, wrong in (
            ("1 1 0 0 0 0 1 0 0 0", "mine.txt:1:1: refused 10, place 0: ", "the memory has 1 word, and the routine has 1 variable"),
            ("4 0 0 0 0 1 0 0 0", "mine.txt:1:3: refused 11, place 1: ", "there are 0 inputs and 1 variable"),
            ("4 2 5 5 0 0 0 2 0 1 0 0", "mine.txt:1:7: refused 11, place 1: ", "v1 is a pointer, and its input is 5"),
        ):
            with self.subTest(text), tempfile.TemporaryDirectory() as folder:
                Path(folder, "mine.txt").write_text(text)
                status, output, _ = mavis("run", "mine.txt", folder=folder)
                self.assertEqual(status, 3)
                self.assertTrue(output.startswith(first), output)
                self.assertIn(f"  wrong: {wrong}\n", output)

    def test_a_memory_by_option_is_not_in_the_text(self):
        self.assertTrue(self.told("routines/list.txt", "--memory", "3").startswith("routines/list.txt: refused 10, place 0: "))

    def test_too_many_registers(self):
        declarations = "".join(f"int *p{i};" for i in range(17))
        with tempfile.TemporaryDirectory() as folder:
            Path(folder, "many.c").write_text(declarations + "void f(void) { }")
            status, output, _ = mavis("run", "many.c", "--register", *(f"p{i}=1" for i in range(17)), folder=folder)
        self.assertEqual((status, output.split(":")[1]), (3, " refused 13, place 0"))


if __name__ == "__main__":
    unittest.main()
