"""Steps of a run: cut tables, and what each command read, wrote and followed."""

import unittest

from routines import RUNS
from support import ROOT, translate

from workbench.cuts import prefix, probe, with_source
from workbench.endings import Ending
from workbench.machine import Call, Machine
from workbench.regions import Regions
from workbench.report.picture import Picture
from workbench.report.steps import FOLLOWS, steps_of
from workbench.report.story import Story
from workbench.routine import routine_of_text
from workbench.source import Source
from workbench.table import COPY, EDITIONS
from workbench.text import read_text

MACHINE = Machine()
DECLARATIONS = "struct calls { int people; struct calls *next; int floors[3]; };\nstruct calls *p, *s; int *q, **r; int n, m;\n"


def stepped(text, memory=4096, inputs=None, registers=(0,), edition=1):
    """The routine of a C text, the machine's answer and the steps."""
    routine = translate("test.c", text, edition)
    call = Call(routine.table.words(), memory, inputs or [0] * len(routine.table.variables), list(registers))
    (answer,) = MACHINE.explain([call])
    return routine, call, answer, steps_of(routine, MACHINE, call, answer)


def stepped_statements(statements, **settings):
    return stepped(f"{DECLARATIONS}void routine(void) {{\n{statements}\n}}\n", **settings)[-2:]


class Steps(unittest.TestCase):
    def test_snapshot(self):
        *_, steps = stepped((ROOT / RUNS["snapshot"][0]).read_text())
        told = [(step.command, step.unused, step.read, step.addressed, step.written) for step in steps]
        expected = [
            (None, 3, [], [], []),
            (0, 7, [], [], [1]),
            (1, 7, [1], [3], [2]),
            (2, 7, [2], [], [3]),
            (3, 7, [2], [], [2]),
            (4, 7, [2], [], []),
        ]
        self.assertEqual(told, expected)
        self.assertEqual([(one.word, one.base, one.end) for step in steps for one in step.followed], [(3, 3, 7), (3, 3, 5)])

    def test_where_follows_lead(self):
        statements = (
            "p = malloc(10); p->next = p + 1; p->next->floors[0] = 4; q = p->next->floors; q[2] = q[0]; r = &q; **r = **r + *(*r + 2);"
        )
        answer, steps = stepped_statements(statements)
        self.assertEqual(answer.ending, "done")
        self.assertEqual([step.written for step in steps[1:]], [[1], [8], [14], [3], [16], [4], [14]])
        self.assertEqual([step.read for step in steps[1:]], [[], [1, 1], [1, 8], [1, 8], [3, 3, 14], [], [4, 3, 4, 3, 14, 4, 3, 16]])
        self.assertEqual(steps[-1].changed[14][0], 8)

    def test_failing_commands_tell_what_came_before(self):
        answer, steps = stepped_statements("q = malloc(2); q[0] = 3; q[1] = q[0] + q[2] + n;")
        self.assertEqual((answer.ending, steps[-1].read, steps[-1].written), ("abort", [3, 3, 7, 3], []))
        answer, steps = stepped_statements("q = malloc(2); n = q[2] + q[0];")
        self.assertEqual((answer.ending, steps[-1].read, steps[-1].followed), ("abort", [3], []))
        answer, steps = stepped_statements("q = malloc(2); *q = (int)malloc(*q + 99);", memory=20)
        self.assertEqual((answer.ending, steps[-1].read, steps[-1].written), ("noroom", [3, 3, 7], []))
        answer, steps = stepped_statements("*(int *)malloc(1) = (int)malloc(5) + *q;")
        self.assertEqual((answer.ending, answer.unused, steps[-1].unused, steps[-1].written), ("abort", 13, 13, []))

    def test_copies(self):
        """The words that a struct assignment reads and writes, also where they overlap, beside those of its pointers."""
        statements = "p = malloc(11); p->people = 4; p->next = p + 1; *p->next = *p; s = (struct calls *)((int *)p + 1); *s = p[0];"
        answer, steps = stepped_statements(statements)
        self.assertEqual(answer.ending, "done")
        last, first = steps[-1], steps[4]
        self.assertEqual((first.read, first.written), ([1, 9, 1, *range(8, 13)], [*range(13, 18), 7]))
        self.assertEqual((last.read, last.written), ([2, 1, *range(8, 13)], [*range(9, 14), 7]))
        told = [(one.operand, one.word, one.base, one.end) for one in first.followed]
        self.assertEqual(told, [(0, 9, 8, 19), (0, 13, 8, 19), (1, 8, 8, 19)])
        self.assertEqual((first.changed[7], first.changed[14]), ((5, 0, 0), (13, 8, 19)))
        self.assertEqual((last.changed[9], last.changed[10]), ((4, 0, 0), (13, 8, 19)))

    def test_failing_copies_write_nothing(self):
        for statement in ("*p = p[2];", "p[2] = *p;"):
            answer, steps = stepped_statements(f"p = malloc(14); {statement}")
            self.assertEqual((answer.ending, steps[-1].read, steps[-1].written), ("abort", [1, 1], []))
            self.assertEqual((steps[-1].followed, steps[-1].changed), ([], {}))

    def test_a_copy_before_a_failure_has_written(self):
        """Of a table only: C has no copy within an expression. The copy is made, then a follow fails, and the place is not assigned."""
        nodes = "1 0 0 4 6 0 10 1 0 8 2 2 1 2 0 1 0 0 6 5 0 4 1 0 5 6 7 1 0 0 6 9 0 11 8 10 1 1 0 6 12 0 2 13 0 6 14 0 5 11 15"
        routine = routine_of_text(read_text(Source("copy.txt", f"16 3 0 0 0  1 1 1 0 3 2 65536 0 3 2 3 0 17 {nodes} 2 0 3 4 16")))
        self.assertEqual(routine.unparser.command(1), "v2 = copy(v0 + 1, v0) + *v1;")
        call = Call(routine.table.words(), 16, [0, 0, 0])
        (answer,) = MACHINE.explain([call])
        step = steps_of(routine, MACHINE, call, answer)[-1]
        self.assertEqual((answer.ending, step.read, step.written), ("abort", [1, 1, 4, 5, 6, 2], [7, 8, 9]))
        regions = Regions(routine, MACHINE, call, answer)
        said = Story(routine, call, answer, regions, Ending(routine, MACHINE, call, answer, regions)).step(step, regions, [])
        self.assertIn(" Wrote words 7 to 9 (block 4, [1].f0). ", said)
        self.assertTrue(said.endswith("Nothing more was assigned."), said)

    def test_records_of_any_size(self):
        for size in (1, 2, 3, 6, 12, 4096):
            text = f"struct s {{ int first[{size}]; int last; }};\nstruct s *p;\nvoid routine(void) {{ p = malloc(sizeof(struct s)); p->last = 7; }}"
            *_, steps = stepped(text, memory=8192)
            self.assertEqual(steps[-1].written, [2 + size])

    def test_only_written_words_change(self):
        for path in sorted((ROOT / "routines").glob("*.c")):
            for edition in EDITIONS:
                with self.subTest(path.name, edition=edition):
                    self.only_written_words_change(translate(path.name, path.read_text(), edition))

    def only_written_words_change(self, routine):
        call = Call(routine.table.words(), 4096, [3 * (type == 0) for type in routine.table.variables])
        (answer,) = MACHINE.explain([call])
        steps = steps_of(routine, MACHINE, call, answer)
        for step in steps[1:]:
            self.assertLessEqual(set(step.changed), set(step.written))
        words = {word: state for step in steps for word, state in step.changed.items()}
        self.assertEqual([words.get(word, (0, 0, 0)) for word in range(answer.unused)], answer.words)
        self.assertEqual(Regions(routine, MACHINE, call, answer).all[-1].end, steps[-1].unused)

    def test_editions(self):
        """What goes through an int is followed in edition 2, and its steps are those of that edition."""
        statements = "q = malloc(2); n = (int)q; *(int *)(1 + n) = 7;"
        answer, steps = stepped_statements(statements, edition=2)
        self.assertEqual((answer.ending, [step.written for step in steps[1:]]), ("done", [[3], [5], [8]]))
        self.assertEqual(steps[2].changed, {5: (7, 7, 9)})
        self.assertEqual([(one.word, one.base, one.end) for one in steps[3].followed], [(8, 7, 9)])
        answer, steps = stepped_statements(statements)
        self.assertEqual((answer.ending, steps[2].changed, steps[3].followed), ("abort", {5: (7, 0, 0)}, []))

    def test_a_full_table_is_asked_but_for_its_last_command(self):
        statements = "q = malloc(4);" + "*q = 1;" * 126
        routine, call, answer, steps = stepped(f"{DECLARATIONS}void routine(void) {{ {statements} *q = 1; }}")
        self.assertEqual(len(routine.table.nodes), 512)
        self.assertEqual([step.told for step in steps], [True] * (len(steps) - 1) + [False])
        self.assertEqual([steps[-2].written, steps[-1].written], [[7], []])


class Pictures(unittest.TestCase):
    """Words and rows as the page gets them."""

    def pictured(self, text, **settings):
        routine, call, answer, steps = stepped(text, **settings)
        return Picture(routine, Regions(routine, MACHINE, call, answer), steps)

    def test_a_pointer_to_what_is_obtained_later(self):
        picture = self.pictured("int *p, *q, *r;\nvoid routine(void) { p = malloc(1); q = p + 3; r = malloc(8); r[2] = 1; }")
        notes = [{word[0]: word[4] for word in words} for words in picture.changes()]
        outside = "outside its bounds [4, 5): block 4"
        self.assertEqual(
            [step.get(2) for step in notes], [None, None, f"-> no word in use, {outside}", f"-> block 5, [2], {outside}", None]
        )

    def test_rows(self):
        picture = self.pictured("int *p, *q;\nvoid routine(void) { p = malloc(50); q = p + 20; *q = 1; p[49] = 2; }")
        expected = [[[1, 1], [2, 2]], [[3, 3], [4, 22, "clear"], [23, 23], [24, 51, "clear"], [52, 52]]]
        self.assertEqual(picture.rows(), expected)
        self.assertEqual(picture.rows({30, 31})[1][3:6], [[24, 29, "clear"], [30, 30], [31, 31]])

    def test_large_copies_are_folded(self):
        """A register of 70 words and a block that gets them by a copy, of which one word is written by itself."""
        text = "struct s { int a[70]; };\nstruct s *p, *q;\nvoid routine(void) { q = malloc(70); *q = *p; q->a[9] = 5; *q = *p; }"
        register, block = self.pictured(text, registers=[1, 0, 70, *range(1, 71)]).rows()[1:]
        self.assertEqual(register, [[4, 4], [5, 72, "copied"], [73, 73]])
        self.assertEqual(block, [[74, 74], [75, 82, "copied"], [83, 83], [84, 142, "copied"], [143, 143]])
        picture = self.pictured(text.replace("q->a[9] = 5; *q = *p;", ""), registers=[1, 0, 70, *[0] * 30, 7, *[0] * 39])
        self.assertEqual(picture.rows()[2], [[74, 74], [75, 103, "copied"], [104, 104], [105, 142, "copied"], [143, 143]])

    def test_registers_are_shown_unless_they_are_long(self):
        text = "int *p;\nvoid routine(void) { p[1] = 7; }"
        for length in (64, 65):
            rows = self.pictured(text, registers=[1, 0, length, *([5] * length)]).rows()[1]
            self.assertEqual(len(rows), {64: 64, 65: 4}[length])
        self.assertEqual(rows, [[2, 2], [3, 3], [4, 65, "words"], [66, 66]])


class Cuts(unittest.TestCase):
    def test_interleaved_nodes(self):
        """Nodes of two commands may stand in any order; a cut keeps it."""
        routine = translate("test.c", f"{DECLARATIONS}void routine(void) {{ n = m + 1; m = n; }}")
        table = routine.table
        order = [0, 5, 1, 6, 2, 7, 3, 4]  # where each new node was
        number = {old: new for new, old in enumerate(order)}
        mixed = [table.nodes[old] for old in order]
        table.nodes = [(kind, number[a] if kind in (5, 6) else a, number[b] if kind == 5 else b) for kind, a, b in mixed]
        table.commands = [(number[place], number[value]) for place, value in table.commands]
        self.assertIsNone(MACHINE.check(table.words()))
        for count in range(3):
            cut, names = prefix(table, count)
            self.assertIsNone(MACHINE.check(cut.words()))
            self.assertEqual(names, sorted(names))

    def test_probes_pass_the_check(self):
        for path in sorted((ROOT / "routines").glob("*.c")):
            for edition in EDITIONS:
                for cut in self.questions(translate(path.name, path.read_text(), edition).table):
                    self.assertEqual((MACHINE.check(cut.words()), cut.edition), (None, edition), path.name)

    def questions(self, table):
        """Every table that is made of one to ask what its nodes follow."""
        for node, (kind, _, _) in enumerate(table.nodes):
            for operand in FOLLOWS.get(kind, ()):
                yield probe(table, node, len(table.commands), operand)[0]
            if kind == COPY:
                yield with_source(table, node, 7)


if __name__ == "__main__":
    unittest.main()
