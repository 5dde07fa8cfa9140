"""What `mavis show` prints gives the same table again; what C can't say is said to be so."""

import re
import sys
import tempfile
import unittest
from pathlib import Path

from support import ROOT, mavis, routine, translate
from test_fragment import SAME, SAME_TEXTS

sys.path.append(str(ROOT / "tests/translation"))
import routines  # noqa: E402

from workbench.routine import routine_of_text  # noqa: E402
from workbench.show import UNSAYABLE, shown_table  # noqa: E402
from workbench.source import Source  # noqa: E402
from workbench.table import EDITIONS  # noqa: E402
from workbench.text import bench_text, read_text  # noqa: E402


def again(made):
    """The table of what is shown, in the edition that its first line names."""
    lines = shown_table(made)
    named = re.fullmatch(r"/\* edition (\d+): build it with --edition \1 \*/", lines[0])
    return translate("shown.c", "\n".join(lines), int(named[1]) if named else 1).table.words()


def by_text(made):
    """The same routine from its text, where it has no names."""
    return routine_of_text(read_text(Source("made.txt", "\n".join(bench_text(made.table, 16, [0] * len(made.table.variables))))))


class Show(unittest.TestCase):
    def check(self, text, edition=1):
        made = translate("made.c", text, edition)
        self.assertEqual(again(made), made.table.words())
        self.assertEqual(again(by_text(made)), made.table.words())

    def test_routines(self):
        for path in sorted(ROOT.glob("routines/*.c")):
            for edition in EDITIONS:
                with self.subTest(path.name, edition=edition):
                    self.check(path.read_text(), edition)

    def test_statements(self):
        for statement in sorted({part for pair in SAME for part in pair}):
            with self.subTest(statement):
                self.check(routine(statement))
        for text in (part for pair in SAME_TEXTS for part in pair):
            with self.subTest(text):
                self.check(text)

    def test_random_routines(self):
        """Those that the translation is held against gcc with."""
        for number in range(150):
            with self.subTest(number):
                made = routines.make(17, number)
                self.check(made.for_translation(), made.edition)

    def test_show_and_build(self):
        """By the commands: what is shown of a text is built to that text again."""
        for name in ("keep", "erase"):
            with self.subTest(name), tempfile.TemporaryDirectory() as folder:
                shown = mavis("show", f"routines/{name}.txt")[1]
                self.assertTrue(shown.startswith("/* edition 2: build it with --edition 2 */\n"), shown)
                Path(folder, "shown.c").write_text(shown)
                built = mavis("build", str(Path(folder, "shown.c")), "--memory", "16", "--edition", "2")
                self.assertEqual(built, (0, (ROOT / f"routines/{name}.txt").read_text(), ""))

    def shown(self, words):
        with tempfile.TemporaryDirectory() as folder:
            path = Path(folder, "table.txt")
            path.write_text(words)
            status, output, _ = mavis("show", str(path))
        self.assertEqual(status, 0)
        return output

    def test_what_c_can_not_say(self):
        for what, text in {
            "a pointer type that leads to itself": "16 1 0  0 0 1 2 1 2 0 0",
            "a field of such a type": "16 0  1 1 1 2 1 1 2 0 0 0",
            "the first word of an array by a follow": "16 2 0 0  1 1 1 0 2 2 65536 0 2 2 0 7 1 1 0 1 0 0 6 1 0 3 2 0 7 3 0 2 4 0 6 5 0 1 0 6",
        }.items():
            with self.subTest(what):
                self.assertIn(UNSAYABLE, self.shown(text))

    def test_copies(self):
        """As an assignment of a struct, where that gives the same table; else in a comment. The records are of one int, the variables two
        pointers to them and ints."""
        head, nodes = "16 {} 0 0 {}  1 1 1 0 1 1 65536 {} 2 2 {}", "1 0 0 6 {} 0 1 1 0 6 {} 0"
        one = f"{head.format(3, 0, 3, 0)} 6 1 2 0 {nodes.format(1, 3)} 11 2 4 1 0 5"
        self.assertIn("\n    *v0 = *v1;\n", self.shown(one))
        self.assertNotIn("v2;", self.shown(one))
        for what, text in {
            "a variable that is not the last": f"{head.format(4, '0 0', 4, '0 0')} 6 1 2 0 {nodes.format(1, 3)} 11 2 4 1 0 5",
            "one that another command names": f"{head.format(3, 0, 3, 0)} 8 1 2 0 {nodes.format(1, 3)} 11 2 4 1 2 0 4 1 0 2 0 5 6 7",
            "a copy within a sum": f"{head.format(3, 0, 3, 0)} 8 1 2 0 {nodes.format(1, 3)} 11 2 4 4 1 0 5 5 6 1 0 7",
            "a copy as an operand beside one as a value": f"{head.format(3, 0, 3, 0)} 14 1 2 0 {nodes.format(1, 3)} 11 2 4 "
            f"1 2 0 {nodes.format(7, 9)} 11 8 10 10 11 0 8 12 0 2 0 5 6 13",
        }.items():
            with self.subTest(what):
                shown = self.shown(text)
                self.assertRegex(shown, rf"/\* {UNSAYABLE} v2 = .*copy\(v0, v1\).*; \*/")
                self.assertIn("int v2; /* variable 2", shown)
                self.assertNotIn("*v0 = *v1", shown)

    def test_a_copy_in_place_of_the_variable_of_copies(self):
        """Two copies: one as C has it, one into another variable."""
        nodes = "1 3 0 1 0 0 6 1 0 1 1 0 6 3 0 11 2 4 1 2 0 1 0 0 6 7 0 1 1 0 6 9 0 11 8 10"
        shown = self.shown(f"16 4 0 0 0 0  1 1 1 0 1 1 65536 4 2 2 0 0 12 {nodes} 2 0 5 6 11")
        self.assertIn("\n    *v0 = *v1;\n", shown)
        self.assertIn(f"/* {UNSAYABLE} v2 = copy(v0, v1); */", shown)
        self.assertIn("/* variable 3: 0, word 4, which the struct assignments make */", shown)

    def test_a_refused_table(self):
        status, output, error = mavis("show", "routines/nocast.txt")
        self.assertEqual((status, error), (3, ""))
        self.assertIn("refused 8", output)


if __name__ == "__main__":
    unittest.main()
