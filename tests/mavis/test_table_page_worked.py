"""The worked example of docs/TABLE.md, and its reasons of aborts, against the proved machine and the translation from C."""

import dataclasses
import re
import unittest

from pages import ROOT, codes, numbers
from table_page import MACHINE, PAGE, WorkedExample, call_of, call_of_text, declared, first_line, routine_of, type_names
from workbench.commands import raw_lines
from workbench.endings import BEFORE_BASE, NO_BOUNDS, PAST_END
from workbench.machine import Cause
from workbench.table import ADDRESS, CAST, DEREF, FIELD, MALLOC, READ, WORD
from workbench.text import bench_text


class Tables(unittest.TestCase):
    """From the C to the table."""

    def setUp(self):
        self.example = WorkedExample.of_page()
        self.routine = self.example.routine()
        self.table = self.routine.table

    def test_written_out(self):
        """What C leaves out, written out, makes the same table."""
        commands = [re.match(r"[^;]*", line)[0] for line in self.example.written_out]
        before = "\n".join(self.example.c).partition("void routine")[0]
        self.assertEqual(self.table, routine_of(before, *commands).table)

    def test_declarations(self):
        words, _, types = declared(self.example.declarations)
        self.assertEqual(4, len(self.example.declarations))
        self.assertEqual(words, self.table.words()[: len(words)])
        self.assertEqual(types, type_names(self.routine, self.table))
        offsets = [int(offset) for offset in re.findall(r"offset (\d+)", " ".join(self.example.declarations))]
        self.assertEqual([self.table.offset(0, 0), self.table.offset(0, 1)], offsets)
        told = PAGE.said(r"three variables, which are words (\d), (\d) and (\d)\.")
        self.assertEqual([1 + i for i in range(len(self.table.variables))], list(map(int, told)))

    def test_nodes(self):
        rows = PAGE.rows("Worked example", "Command | Node | Words | Meaning")
        self.assertEqual(list(range(23)), [int(row[1]) for row in rows])
        self.assertEqual(self.table.nodes, [tuple(numbers(code)) for row in rows for code in codes(row[2])])
        firsts = [0] + [value + 1 for _, value in self.table.commands[:-1]]
        self.assertEqual({first: str(command) for command, first in enumerate(firsts)}, {int(row[1]): row[0] for row in rows if row[0]})
        places = [int(row[1]) for row in rows if row[3].startswith("place: ")]
        self.assertEqual([place for place, _ in self.table.commands], places)

    def test_meanings(self):
        for _, node, _, told in PAGE.rows("Worked example", "Command | Node | Words | Meaning"):
            with self.subTest(node):
                self.assertEqual(self.meaning(int(node)), told.replace("place: ", "").replace(" of the record it points to", ""))

    def meaning(self, node):
        """A node as the page tells of it."""
        kind, a, b = self.table.nodes[node]
        if kind == DEREF:
            return f"*({self.routine.unparser.text(a)})"
        told = {READ: "its value", ADDRESS: "its address, an int *", FIELD: f"field {b}"}
        told.update({CAST: f"cast of node {a} to type {b}", MALLOC: f"malloc of node {a}"})
        return told.get(kind) or self.routine.unparser.text(node)

    def test_commands(self):
        (pairs,) = PAGE.said(r"Four pairs of place and value: nodes (.*?)\. These are the nodes that no other node uses\.")
        told = [tuple(map(int, pair.split(" and "))) for pair in pairs.split(", ")]
        self.assertEqual(self.table.commands, told)
        used = {child for node in range(len(self.table.nodes)) for child in self.table.children(node)}
        self.assertEqual(sorted(set(range(len(self.table.nodes))) - used), sorted(node for pair in told for node in pair))

    def test_text(self):
        memory, *inputs = map(int, PAGE.said(r"with a memory of (\d+) words and the inputs (\d+), (\d+) \(pointers\) and (\d+)"))
        self.assertEqual(bench_text(self.table, memory, inputs), self.example.text)


class Runs(unittest.TestCase):
    """The run of its text, and of its variants."""

    def test_output(self):
        example = WorkedExample.of_page()
        (answer,) = MACHINE.explain([example.call()])
        self.assertEqual(example.output, raw_lines(answer))
        bounds = r"The record is the block \[(\d), (\d)\)\. `car` \(word 1\) has the bounds of the block, `stop` \(word 2\) those of "
        told = PAGE.said(bounds + r"the three stops, \[(\d), (\d)\)")
        self.assertEqual([*answer.words[1][1:], *answer.words[2][1:]], list(map(int, told)))

    def test_variants(self):
        constant = r"With (\d+) in place of (\d+) in node \d+, the store is one word past the stops, and the run ends with `([^`]*)`"
        memory = r"with a memory of (\d+) words the record does not fit, and it ends with `([^`]*)`"
        new, old, abort, words, no_room = PAGE.said(f"{constant}; {memory}")
        example = WorkedExample.of_page()
        calls = [example.with_constant(int(new), int(old)), dataclasses.replace(example.call(), memory=int(words))]
        answers = MACHINE.explain(calls)
        self.assertEqual([abort, no_room], list(map(first_line, answers)))
        self.assertEqual(answers[0].cause.end, answers[0].cause.place)  # one word past the stops


class Why(unittest.TestCase):
    """The reasons of aborts."""

    def call(self, cell):
        """The call that a row tells of."""
        constants = re.search(r"the worked example below with (\d+) in place of (\d+)", cell)
        if constants:
            return WorkedExample.of_page().with_constant(*map(int, constants.groups()))
        if cell.startswith("`routines/"):
            name, statement = codes(cell)
            self.assertIn(statement, (ROOT / f"{name}.c").read_text(encoding="utf-8"))
            listed = ROOT / f"{name}.registers"
            registers = numbers(listed.read_text(encoding="utf-8")) if listed.is_file() else [0]
            return dataclasses.replace(call_of_text((ROOT / f"{name}.txt").read_text(encoding="utf-8")), registers=registers)
        command, type = codes(cell)
        return call_of(routine_of(f"{type}q;", command))

    def test_examples(self):
        rows = PAGE.rows("Why a run aborted", "Commands | node, place, words, base, end, reason, first word")
        answers = MACHINE.explain([self.call(cell) for cell, _ in rows])
        self.assertEqual(4, len(answers))
        for (cell, told), answer in zip(rows, answers):
            with self.subTest(cell):
                form = r"(\d+), (\d+), (\d+), (\d+), (\d+), reason (\d+), first word (\d+)(?:: (.*))?"
                *seven, more = re.fullmatch(form, told).groups()
                cause = answer.cause
                self.assertEqual(Cause(*map(int, seven)), cause)
                self.assertIn(more, (None, f"the stops are [{cause.base}, {cause.end}), in the block at {cause.first}"))

    def test_numbers(self):
        """The seven numbers are those of the machine's answer, in its order, and so are the reasons."""
        cells = dict(PAGE.rows("Why a run aborted", "Number | Meaning"))
        told = [each.name for each in dataclasses.fields(Cause) if each.default is dataclasses.MISSING]
        self.assertEqual(told, [name.split()[0] for name in ", ".join(cells).split(", ")])
        reasons = re.findall(r"(\d) (no bounds|before the base|past the end)", cells["reason"])
        self.assertEqual(
            {"no bounds": NO_BOUNDS, "before the base": BEFORE_BASE, "past the end": PAST_END}, {b: int(a) for a, b in reasons}
        )
        self.assertTrue(cells["first word"].endswith(f"0 for reason {NO_BOUNDS}"))
        self.assertTrue(cells["place wanted"].endswith(f"the exact sum, which can be above {WORD - 1:,}"))


if __name__ == "__main__":
    unittest.main()
