"""routines/README.md and the routines themselves against the proved machine and the translation from C."""

import dataclasses
import unittest

from pages import ROOT, Page, codes, mavis, numbers
from workbench.bare import bare_lines
from workbench.commands import raw_lines
from workbench.endings import BEFORE_BASE, NO_BOUNDS
from workbench.machine import Call, Machine
from workbench.source import Source
from workbench.table import CAST, INT, OPERANDS, PLACE, VALUE, Table
from workbench.text import read_text
from workbench.translate import translate
from workbench.wording import counted

FOLDER = ROOT / "routines"
PAGE = Page("routines/README.md")
MACHINE = Machine()
NO_CAST = "nocast"  # its table lacks a cast that the translation makes


def listed():
    """The rows of the page's first three tables: routines without registers, with them, and of edition 2."""
    columns = "Shows | Ends | Wanted"
    return [PAGE.rows("Routines", f"Routine | {each}") for each in (columns, f"Registers | {columns}", f"{columns} | In edition 1")]


def ended():
    """The rows of all routines, each up to how it ends and what it wanted."""
    plain, with_registers, edition_2 = listed()
    return plain + with_registers + [row[:-1] for row in edition_2]


def names(suffix):
    """The routines that have a file of this kind."""
    return sorted(path.stem for path in FOLDER.glob(f"*.{suffix}"))


def content(name, suffix):
    path = FOLDER / f"{name}.{suffix}"
    return path.read_text(encoding="utf-8") if path.is_file() else None


def call(name, table=None):
    """The call of a routine's text with its registers, or of another table in its place."""
    read = read_text(Source(name, content(name, "txt")))
    return Call(read.words if table is None else table.words(), read.memory, read.inputs, numbers(content(name, "registers") or "0"))


def edition(name):
    """The edition of a routine's text."""
    return Table.of(read_text(Source(name, content(name, "txt"))).words).edition


def of_c(name):
    return translate(f"{name}.c", content(name, "c"), edition(name))


def wanted(cause):
    """What an aborted run wanted, as the page says it."""
    if cause is None:
        return ""
    if cause.reason == NO_BOUNDS:
        return f"{counted(cause.words, 'word')} at {cause.place}, without bounds"
    side = "before the base" if cause.reason == BEFORE_BASE else "past the end"
    return f"{counted(cause.words, 'word')} at {cause.place}, {side} of [{cause.base}, {cause.end})"


def without(table, node):
    """A table without a node that has one child, which takes its place."""

    def number(at):
        at = table.nodes[at][1] if at == node else at
        return at - (at > node)

    nodes = []
    for at, (kind, *operands) in enumerate(table.nodes):
        renumbered = [number(operand) if role in (VALUE, PLACE) else operand for role, operand in zip(OPERANDS[kind], operands)]
        nodes += [(kind, *renumbered)] if at != node else []
    commands = [(number(place), number(value)) for place, value in table.commands]
    return Table(table.records, table.fields, table.pointers, table.variables, nodes, commands)


def bare(name):
    """How a routine ends without bounds, and what the fenced run is said to do."""
    made = of_c(name)
    called = call(name, made.table)
    (answer,) = MACHINE.bare([called])
    (line,) = [line for line in bare_lines(made, MACHINE, called, answer) if line.startswith("  fenced: ")]
    return raw_lines(answer)[0], line.removeprefix("  fenced: ")


class RoutinesPage(unittest.TestCase):
    """The page's tables."""

    def test_every_routine_is_listed_once(self):
        plain, with_registers, edition_2 = listed()
        self.assertEqual([16, 7, 2], list(map(len, listed())))
        self.assertEqual(4, len(PAGE.grids))
        for suffix in ("c", "txt", "out"):
            with self.subTest(suffix):
                self.assertEqual(sorted(row[0] for row in plain + with_registers + edition_2), names(suffix))
        self.assertEqual(sorted(row[0] for row in with_registers), names("registers"))
        self.assertEqual(sorted(row[0] for row in edition_2), [name for name in names("txt") if edition(name) == 2])

    def test_every_file_is_of_a_routine(self):
        others = [path.name for path in FOLDER.iterdir() if path.suffix not in (".c", ".txt", ".out", ".registers")]
        self.assertEqual(["README.md", "build", "call.awk", "prove", "run"], sorted(others))

    def test_ends_and_wanted(self):
        rows = ended()
        for row, answer in zip(rows, MACHINE.explain([call(row[0]) for row in rows])):
            with self.subTest(row[0]):
                self.assertEqual(codes(row[-2]), raw_lines(answer)[:1])
                self.assertEqual(row[-1], wanted(answer.cause))

    def test_edition_1(self):
        """How routines of edition 2 end without the mark."""
        rows = listed()[-1]
        unmarked = [call(row[0], dataclasses.replace(of_c(row[0]).table, edition=1)) for row in rows]
        for row, answer in zip(rows, MACHINE.explain(unmarked)):
            with self.subTest(row[0]):
                self.assertEqual(codes(row[-1]), raw_lines(answer)[:1])

    def test_bare(self):
        """How those end that abort with bounds, in the same order, and what differs then. The others have the same result."""
        ends = {row[0]: codes(row[-2])[0] for row in ended()}
        aborts = [name for name, end in ends.items() if end.startswith("abort ")]
        rows = PAGE.rows("Routines", "Routine | Ends bare | Words that differ")
        self.assertEqual(aborts, [row[0] for row in rows])
        for name, end, differ in rows:
            with self.subTest(name):
                told = f"words that differ: {differ}" if differ else "no word differs"
                answer, compared = bare(name)
                self.assertEqual((f"`{answer}`", compared.partition("; ")[2]), (end, told))
        for name in ends.keys() - aborts - {NO_CAST}:
            with self.subTest(name):
                self.assertEqual((ends[name], "the same result"), bare(name))


class Routines(unittest.TestCase):
    """Each routine's three files against each other."""

    maxDiff = None

    def answered(self, calls):
        """Each call's answer is the routine's NAME.out."""
        for name, answer in zip(calls, MACHINE.explain(list(calls.values()))):
            with self.subTest(name):
                self.assertEqual(content(name, "out").splitlines(), raw_lines(answer))

    def test_texts(self):
        self.answered({name: call(name) for name in names("c")})

    def test_c(self):
        self.answered({name: call(name, of_c(name).table) for name in names("c") if name != NO_CAST})

    def test_built(self):
        """A routine's text is what `mavis build` makes of its C."""
        for name in names("c"):
            if name == NO_CAST:
                continue
            with self.subTest(name):
                read, routine = read_text(Source(name, content(name, "txt"))), of_c(name)
                variables = zip(routine.names.own, routine.table.variables, read.inputs)
                inputs = [f"--input={variable}={value}" for variable, type, value in variables if type == INT]
                built = mavis("build", str(FOLDER / f"{name}.c"), f"--memory={read.memory}", f"--edition={edition(name)}", *inputs)
                self.assertEqual((0, content(name, "txt").splitlines()), built)

    def test_no_cast(self):
        """The text is what is built, but for the one cast that it lacks; with it the routine passes the check."""
        table = of_c(NO_CAST).table
        (cast,) = [at for at, (kind, _, _) in enumerate(table.nodes) if kind == CAST]
        self.assertEqual(call(NO_CAST).table, without(table, cast).words())
        self.assertIsNone(MACHINE.check(table.words()))


if __name__ == "__main__":
    unittest.main()
