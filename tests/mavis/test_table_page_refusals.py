"""The refusals of docs/TABLE.md and its bench texts, against the proved machine."""

import re
import tempfile
import unittest
from pathlib import Path

from pages import codes, count, mavis, numbers
from table_page import MACHINE, NO_COMMANDS, PAGE, call_of_text, first_line
from workbench import text
from workbench.c.declarations import FIELD_WORDS
from workbench.machine import LONGEST, Call
from workbench.table import ADDRESS, COPY, DEREF, FIELD, INT, KIND_NAMES, MALLOC, SUM, VOID_POINTER, WORD, Table, spot

# What the page calls the place of a refusal, and the word of the table that this is.
PLACES = {
    "the first of them": "after section 6",
    "the count": "its count$",
    "its word in section 1": "section 1 .* entry",
    "count of section 2": "section 2 .* its count$",
    "its count of words": "section 2 .* its count of words",
    "the type": "section 2 .* its type|section 4 .* entry",
    "the target": "section 3 .* entry",
    "the later entry": "section 3 .* entry [1-9]",
    "the kind": "section 5 .* its kind",
    "its kind": "section 5 .* its kind",
    "its a": "section 5 .* its a",
    "the a of kind 1": "section 5 .* its a",
    "its b": "section 5 .* its b",
    "the b": "section 5 .* its b",
    "the a or b": "section 5 .* its [ab]",
    "that word": "section 6 .* its (place|value) node",
    "the command's first word": "section 6 .* its place node",
    "1, that word": "before section 1, the edition",
}
# A text of each sort that the page says is answered by `input`.
OTHER_TEXTS = {
    "tabs": "1\t0 0 0 0 0 0 0",
    "carriage returns": "1 0 0 0 0 0 0 0\r\n",
    "signs": "1 0 0 0 0 0 0 +0",
    "comments": "1 0 0 0 0 0 0 0 /* done */",
    "numbers that are too large": f"1 0 0 0 0 0 0 {WORD}",
    "missing inputs": "4 2 0",
}


def rows_of(example):
    """The rows of a table of refusals, by what its examples are."""
    return PAGE.rows("Refusals", f"No. | Condition | Place | {example} | Answer")


class OfTables(unittest.TestCase):
    """Refusals 1 to 9, and 16."""

    def refused(self, given, answers):
        """Each table is refused as its row says, by the check alone and by a run."""
        tables = [numbers(table) for cell in given for table in codes(cell)]
        self.assertEqual(len(given), len(tables))
        for table, cell, run in zip(tables, answers, MACHINE.explain([Call(table, 16, []) for table in tables])):
            with self.subTest(table):
                self.assertEqual(codes(cell), [first_line(run)])
                self.assertEqual(run, MACHINE.check(table))

    def test_tables(self):
        rows = rows_of("Table")
        self.refused([row[3] for row in rows], [row[4] for row in rows])

    def test_editions(self):
        rows = PAGE.rows("Editions", "Table | Answer | ")
        self.refused([row[0] for row in rows], [row[1] for row in rows])

    def test_two_faults(self):
        rows = PAGE.rows("Order", "Table | Faults | Answer")
        self.refused([row[0] for row in rows], [row[2] for row in rows])

    def test_numbers_and_places(self):
        """The number and the place that an answer has are those that its row tells of."""
        for number, _, place, table, answer in rows_of("Table"):
            with self.subTest(table):
                words, (given, at) = numbers(codes(table)[0]), numbers(codes(answer)[0].replace("refused", ""))
                self.assertEqual(int(number), given)
                if place == "length of the table":
                    self.assertEqual(len(words), at)
                else:
                    self.assertRegex(str(spot(words, at)), PLACES[place])


class OfCalls(unittest.TestCase):
    """Refusals 10 to 15."""

    def refused(self, rows, calls):
        """Each row's call is refused as it says, and its table passes the check."""
        self.assertEqual(len(rows), len(calls))
        for (number, condition, place, _, cell), call, answer in zip(rows, calls, MACHINE.explain(calls)):
            with self.subTest(condition):
                self.assertEqual(codes(cell), [first_line(answer)])
                self.assertEqual(int(number), answer.number)
                self.assertIsNone(MACHINE.check(call.table))
                lengths = {"V": len(Table.of(call.table).variables), "length of the list": len(call.registers)}
                told = lengths.get(place, count(place) if place[0].isdigit() else answer.place)
                self.assertEqual(told, answer.place)

    def test_memory_and_inputs(self):
        rows = rows_of("Text")
        self.refused(rows, [call_of_text(code) for row in rows for code in codes(row[3])])

    def test_registers(self):
        (memory,) = PAGE.said(r"two variables, a pointer \(0\) and an int \(1\), in memory of (\d+) words")
        table, rows = [0, 0, 0, 2, VOID_POINTER, INT, *NO_COMMANDS], rows_of("List")
        self.refused(rows, [Call(table, int(memory), [0, 0], numbers(" ".join(codes(row[3])))) for row in rows])
        self.assertEqual(["the list has no words"], [row[1] for row in rows if not codes(row[3])])


class Told(unittest.TestCase):
    """What the page says of refusals beside its examples."""

    def test_numbers(self):
        """Which refusals depend on what, and the number that is not used."""
        of_tables = r"Refusals (\d+) to (\d+) and (\d+) depend on the table"
        of_calls = r"(\d+) and (\d+) depend on the memory .*, (\d+) to (\d+) on its registers"
        first, last, edition, *others, unused = map(int, PAGE.said(rf"{of_tables} .* {of_calls}\. The number (\d+) is not used"))
        given = [sorted({int(row[0]) for row in rows_of(example)}) for example in ("Table", "Text", "List")]
        self.assertEqual([*range(first, last + 1), edition], given[0])
        self.assertEqual([number for each in given[1:] for number in (each[0], each[-1])], others)
        self.assertEqual([number for number in range(1, 17) if number != unused], sorted(sum(given, [])))

    def test_conditions(self):
        """The limits within the conditions."""
        conditions = " ".join(row[1] for grid in PAGE.grids if grid.heading == "Refusals" for row in grid.rows)
        limits = {
            r"has 0 words or more than ([\d,]+)": FIELD_WORDS,
            r"longer than ([\d,]+) words": LONGEST,
            r"more than ([\d,]+) registers": count(PAGE.rows("Registers", "Words | Meaning")[0][1]),
            r"a kind that is not 1 to (\d+)": max(KIND_NAMES),
        }
        self.assertEqual(list(limits.values()), [count(re.search(pattern, conditions)[1]) for pattern in limits])

    def test_kinds_with_types(self):
        kinds = [int(kind) for kind, _ in PAGE.rows("Refusals", "Kind | Not allowed")]
        self.assertEqual([DEREF, FIELD, SUM, ADDRESS, MALLOC, COPY], kinds)


class BenchTexts(unittest.TestCase):
    def printed(self, given):
        """What `mavis run --raw` prints for a text."""
        with tempfile.TemporaryDirectory() as folder:
            path = Path(folder) / "text"
            path.write_bytes(given.encode())
            return mavis("run", "--raw", str(path))[1]

    def test_texts(self):
        rows = PAGE.rows("The bench text", "Text | Output")
        self.assertEqual(6, len(rows))
        for given, output in rows:
            with self.subTest(given):
                (code,) = codes(given)
                self.assertEqual(codes(output), self.printed(code))

    def test_other_texts(self):
        sorts, line = PAGE.said(r"Any other text \(([^)]*)\) gives the single line `([^`]*)`")
        self.assertEqual(list(OTHER_TEXTS), sorts.split(", "))
        for sort, given in OTHER_TEXTS.items():
            with self.subTest(sort):
                self.assertEqual([line], self.printed(given))

    def test_bytes(self):
        separators = "".join(chr(int(byte)) for byte in PAGE.said(r"spaces or line ends \(bytes (\d+) and (\d+)\), one or more"))
        self.assertEqual(["done 1"], self.printed(separators.join(["", *"10000000", ""])))

    def test_limits(self):
        limits = {part: count(limit) for part, limit in PAGE.rows("The bench text", "Part | Limit") if limit.startswith("at most")}
        self.assertEqual({"length of the memory": text.MEMORY, "count of inputs": text.INPUTS, "the table": text.TABLE}, limits)


if __name__ == "__main__":
    unittest.main()
