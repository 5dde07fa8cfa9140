"""Editions of the cast rule: how each command takes one, and what is told of a run where ints have bounds."""

import json
import re
import tempfile
import unittest
from pathlib import Path

from support import MACHINE, ROOT, explained, mavis, routine, words

from workbench.cuts import prefix, probe, with_source
from workbench.machine import Call
from workbench.memory import memory_lines
from workbench.regions import Regions
from workbench.table import COPY, DEREF, MARK, Table
from workbench.text import TABLE

HEAD = [MARK, 2]
KEEP, ERASE = "routines/keep", "routines/erase"


class Built(unittest.TestCase):
    """Where C becomes a table, its edition is asked for."""

    def test_the_table(self):
        for statements in ("", "n = 1;", "p = malloc(4);\n*p = *p;", "n = (int)q;\nq = (int *)n;"):
            with self.subTest(statements):
                self.assertEqual(words(statements, 2), HEAD + words(statements))
                self.assertEqual(Table.of(words(statements, 2)).words(), words(statements, 2))

    def test_the_text(self):
        plain, first, second = (
            mavis("build", f"{KEEP}.c", "--memory", "16", *edition)[1].splitlines()
            for edition in ([], ["--edition", "1"], ["--edition=2"])
        )
        self.assertEqual(plain, first)
        self.assertEqual(second, [*plain[:2], "4294967295 2", *plain[2:]])

    def test_the_listing(self):
        plain, second = (mavis("build", f"{KEEP}.c", "--listing", *edition)[1].splitlines() for edition in ([], ["--edition", "2"]))
        self.assertEqual(second, ["        edition 2: 4294967295 2", *plain])

    def test_the_check(self):
        passes = "passes: edition 2, 3 variables, 25 nodes, 5 commands\n"
        self.assertEqual(mavis("check", f"{KEEP}.txt"), (0, f"{KEEP}.txt: {passes}", ""))
        self.assertEqual(mavis("check", f"{KEEP}.c", "--edition", "2"), (0, f"{KEEP}.c: {passes}", ""))
        self.assertEqual(mavis("check", f"{KEEP}.c")[1], f"{KEEP}.c: {passes.replace('edition 2, ', '')}")

    def test_the_run(self):
        """C in an edition, and its text, which says it: the same answer."""
        for name, ends in ((KEEP, ("abort 4 9", "done 9")), (ERASE, ("done 4", "abort 2 4"))):
            with self.subTest(name):
                told = [mavis("run", "--raw", f"{name}.c", "--edition", edition, "--memory", "16")[1] for edition in "12"]
                self.assertEqual(tuple(each.splitlines()[0] for each in told), ends)
                self.assertEqual(told[0], mavis("run", "--raw", f"{name}.c", "--memory", "16")[1])
                self.assertEqual(told[1], mavis("run", "--raw", f"{name}.txt")[1])
                self.assertEqual(told[1], (ROOT / f"{name}.out").read_text())

    def test_an_edition_and_a_table(self):
        told = "mavis: --edition is for C; routines/keep.txt is a table, whose words tell its edition\n"
        for command in ("run", "report", "check", "show"):
            with self.subTest(command):
                self.assertEqual(mavis(command, f"{KEEP}.txt", "--edition", "2"), (64, "", told))
        self.assertEqual(mavis("build", f"{KEEP}.c", "--edition", "3")[2], "mavis: --edition: there is no edition 3; there are 1 and 2\n")

    def test_the_longest_texts(self):
        """As many words as the bench program takes, marked and not, and one more."""
        for head in ([], HEAD):
            for count in (TABLE, TABLE + 1):
                with self.subTest(count, head=head), tempfile.TemporaryDirectory() as folder:
                    path = Path(folder, "long.txt")
                    path.write_text(" ".join(map(str, [1, 0, *head, *[0] * (count - len(head))])))
                    printed, told = f"refused 2 {6 + len(head)}\n", "words after the last section"
                    if count > TABLE:
                        printed, told = "input\n", f"has {count} words, and {TABLE} is the most"
                    self.assertEqual(mavis("run", "--raw", str(path)), (3, printed, ""))
                    self.assertIn(told, "".join(mavis("check", str(path))[1:]))


class Words(unittest.TestCase):
    """What is told of each word that a run leaves."""

    def lines(self, statements, edition, declarations="int *p, *q; int n, m;\n"):
        made, answer = explained(routine(statements, declarations), edition=edition)
        call = Call(made.table.words(), 64, [0] * len(made.table.variables))
        return memory_lines(Regions(made, MACHINE, call, answer), made)

    def both(self, statements, first, second, **settings):
        """A word's line in edition 1, and in edition 2."""
        for edition, line in ((1, first), (2, second)):
            with self.subTest(statements, edition=edition):
                self.assertIn(line, self.lines(statements, edition, **settings))

    def test_ints_with_bounds(self):
        self.both("n = (int)&q;", "  3  n = 2", "  3  n = 2  -> variable q, bounds [2, 3): variable q")
        self.both("n = 5 + (int)malloc(2);", "  3  n = 10", "  3  n = 10  -> no word in use, outside its bounds [5, 7): block 5")
        self.both("n = (int)&q + 2;", "  3  n = 4", "  3  n = 4  -> variable m, outside its bounds [2, 3): variable q")

    def test_ints_without_bounds(self):
        for statements in ("n = 2;", "n = sizeof(int) + 1;", "n = (int)&q;\nn = 2;", "n = (int)(int *)2;", "n = 2 + (int)malloc(0);"):
            self.both(statements, "  3  n = 2", "  3  n = 2")

    def test_ints_stored_over_pointers(self):
        self.both("p = &n;\n*(int *)&p = 4;", "  1  p = 4  -> variable m, outside its bounds [3, 4): variable n", "  1  p = 4  no bounds")
        over = "p = malloc(2);\n*(int **)p = &n;\n*p = 7;"
        self.both(over, "  5  [0] = 7  an int over bounds [3, 4): variable n", "  5  [0] = 7")
        kept = "p = malloc(2);\n*(int **)p = &n;\n*p = *p + 0;"
        self.both(kept, "  5  [0] = 3  an int over bounds [3, 4): variable n", "  5  [0] = 3  -> variable n, bounds [3, 4): variable n")

    def test_pointers_from_ints(self):
        self.both("n = (int)&m;\np = (int *)n;", "  1  p = 4  no bounds", "  1  p = 4  -> variable m, bounds [4, 5): variable m")
        self.both("p = (int *)4;", "  1  p = 4  no bounds", "  1  p = 4  no bounds")

    def test_sums(self):
        """The bounds of the left operand, and of the right one only where the left one has none."""
        of_m, of_n = "-> variable m, bounds [4, 5): variable m", "-> variable m, outside its bounds [3, 4): variable n"
        self.both("p = q + (int)&m;", "  1  p = 4  no bounds", f"  1  p = 4  {of_m}")
        self.both("p = &n + 1;", f"  1  p = 4  {of_n}", f"  1  p = 4  {of_n}")
        self.both("m = 1;\nn = (int)&n + m;", "  3  n = 4", f"  3  n = 4  {of_n}")
        self.both("n = (int)&n + (int)&m - 3;", "  3  n = 4", f"  3  n = 4  {of_n}")
        self.both("n = 0 + (int)&m;", "  3  n = 4", f"  3  n = 4  {of_m}")

    def test_no_int_is_over_bounds(self):
        """In edition 2 bounds are the word's own."""
        for path in sorted(ROOT.glob("routines/*.c")):
            with self.subTest(path.name):
                made, answer = explained(path.read_text(), edition=2)
                call = Call(made.table.words(), 64, [0] * len(made.table.variables))
                self.assertNotIn("an int over", "\n".join(memory_lines(Regions(made, MACHINE, call, answer), made)))


class Questions(unittest.TestCase):
    """The tables that the machine is asked further questions by are of the routine's edition."""

    def test_cuts(self):
        made = explained(routine("p = malloc(8);\nq = p->queue;\n*q = 1;\n*p = p[1];"), edition=2)[0]
        cuts = [prefix(made.table, 2)[0]]
        for node, (kind, _, _) in enumerate(made.table.nodes):
            cuts += [probe(made.table, node, 4)[0]] if kind == DEREF else []
            cuts += [with_source(made.table, node, 7)] if kind == COPY else []
        self.assertEqual([cut.words()[:2] for cut in cuts], [HEAD] * 3)
        self.assertEqual([MACHINE.check(cut.words()) for cut in cuts], [None] * 3)

    def test_the_struct_that_failed(self):
        """By an int: in edition 1 the first struct has no bounds, in edition 2 the second one alone is out of them."""
        text = routine("p = malloc(4);\nn = (int)p;\n*(struct calls *)n = *(p + 1);")
        for edition, failed in ((1, "*(struct calls *)n"), (2, "*(p + 1)")):
            with self.subTest(edition):
                made, answer = explained(text, edition=edition)
                self.assertEqual((answer.ending, made.check_span(answer.cause).text), ("abort", failed))


class Reports(unittest.TestCase):
    def page(self, *options):
        """A page's text, and its data."""
        status, text, error = mavis("report", *options)
        self.assertEqual(error, "")
        return status, text, json.loads(re.search(r'id="data">(.*?)</script>', text, re.DOTALL)[1])

    def test_edition_2(self):
        for options in ((f"{KEEP}.c", "--edition", "2"), (f"{KEEP}.txt",)):
            with self.subTest(options):
                status, text, data = self.page(*options)
                self.assertEqual(status, 0)
                self.assertIn("<dt>Edition</dt><dd>2</dd>", text)
                self.assertIn("Arrows lead from a pointer, or from an int with bounds, to", text)
                self.assertEqual([step["bounds"][-1][:2] for step in data["steps"][1:]], [[4, 6], [4, 6], [4, 6], [6, 9], [6, 9]])
                numbers = [word for step in data["steps"] for word in step["words"] if word[0] == 3]
                self.assertEqual(numbers, [[3, 7, 6, 9, "-> block 6, [1], bounds [6, 9): block 6", 1]])
                self.assertIn("Followed ", data["steps"][-1]["bounds"][0][2])

    def test_stored_ints(self):
        """What an int store leaves of a pointer, at its step."""
        for edition, note in (("1", "-> block 2, [1], bounds [2, 4): block 2"), ("2", "no bounds")):
            with self.subTest(edition):
                steps = self.page(f"{ERASE}.c", "--edition", edition)[2]["steps"]
                self.assertEqual([word[4] for word in steps[2]["words"]], [note])

    def test_edition_1(self):
        _, text, data = self.page(f"{KEEP}.c")
        self.assertNotIn("Edition", text)
        self.assertIn("Arrows lead from a pointer to", text)
        self.assertEqual([word[5] for step in data["steps"] for word in step["words"] if word[0] == 3], [0])

    def test_refused(self):
        with tempfile.TemporaryDirectory() as folder:
            path = Path(folder, "third.txt")
            path.write_text("16 0 4294967295 3 0 0 0 0 0 0")
            status, text, data = self.page(str(path))
        self.assertEqual((status, data), (3, None))
        self.assertIn("Refused, and nothing was run: another edition than 2 (refusal 16 at place 1).", text)


if __name__ == "__main__":
    unittest.main()
