"""What `mavis run --bare` tells: how a run without bounds ends, what the fenced run does in its place, and the memory that it leaves."""

import re
import sys
import tempfile
import unittest
from pathlib import Path

from support import MACHINE, ROOT, mavis, routine, translate
from test_blocks import call_of, told

sys.path.append(str(ROOT / "tests/translation"))
import routines  # noqa: E402

from workbench.bare import NAMED, bare_lines  # noqa: E402
from workbench.commands import fenced_lines  # noqa: E402
from workbench.machine import Call  # noqa: E402
from workbench.routine import routine_of_text  # noqa: E402
from workbench.source import Source  # noqa: E402
from workbench.table import EDITIONS  # noqa: E402
from workbench.text import bench_text, read_text  # noqa: E402

PLAIN = "int *p, *q; int n;\n"  # words 1 to 3
STRUCTS = """struct car { int floor; int *stop; }; struct row { int floors[3]; };
struct car *p, *q; int *s; int n;
"""  # words 1 to 4, and 5 for the words copied
PAST = ["", "written at or past the first unused word"]
SNAPSHOT, BEYOND = "routines/snapshot.c", "routines/beyond.c"


def asked(statements, declarations=PLAIN, edition=1, memory=64, registers=(0,)):
    """The routine of these statements, of which the first is line 3 or 4, and its call."""
    made = translate("test.c", routine(statements, declarations), edition)
    return made, Call(made.table.words(), memory, [0] * len(made.table.variables), list(registers))


def bare(statements, *declarations, **settings):
    """The lines of a bare run."""
    made, call = asked(statements, *declarations, **settings)
    return split(bare_lines(made, MACHINE, call, *MACHINE.bare([call])))


def fenced(statements, *declarations, **settings):
    """The lines of the fenced run, without what bounds tell."""
    made, call = asked(statements, *declarations, **settings)
    lines = fenced_lines(made, MACHINE, call, *MACHINE.explain([call]))
    return [re.sub(r", (outside its )?bounds \[.*", "", line) for line in split(lines)]


def split(lines):
    return "\n".join(lines).split("\n")


def compared(lines):
    """What is said of the fenced run."""
    (line,) = [line for line in lines if line.startswith("  fenced: ")]
    return line.removeprefix("  fenced: ")


def without(lines, start):
    """The lines but for the one that starts so."""
    rest = [line for line in lines if not line.startswith(start)]
    assert len(rest) == len(lines) - 1, lines
    return rest


class Endings(unittest.TestCase):
    """How a run ended."""

    def same(self, statements, *declarations, **settings):
        """Both runs end alike and leave the same, and only the bounds are missing."""
        with self.subTest(statements):
            lines = bare(statements, *declarations, **settings)
            self.assertEqual(compared(lines), "the same result")
            self.assertEqual(without(lines, "  fenced: "), fenced(statements, *declarations, **settings))

    def test_done(self):
        self.same("")
        self.same("p = malloc(3);\np[2] = 7;\nq = p + 2;\nn = *q;")
        self.same("p = malloc(4);\np->floor = 5;\np->stop = &n;\np[1] = *p;\ns = malloc(0);", STRUCTS)

    def test_no_room(self):
        self.same("p = malloc(2);\nq = malloc(n + 13);", memory=16)
        self.same("p = malloc(-1);")
        self.same("*(int *)malloc(2) = (int)malloc(n + 13);", memory=16)

    def test_no_room_after_an_abort(self):
        """How much was asked for, if it is of a command's only malloc and the longest memory has it."""
        for statement, expected in (
            ("q = malloc(n + 13);", "5:5: no room: `malloc(n + 13)` asks for 13 words, and 10 words of 16 are left"),
            ("q = malloc(-1);", "5:5: no room: `malloc(-1)` asks for more than 10 words, and 10 words of 16 are left"),
            ("*(int *)malloc(2) = (int)malloc(13);", "5:1: no room: malloc asks for more than 8 words, and 8 words of 16 are left"),
        ):
            with self.subTest(statement):
                lines = bare(f"p = malloc(2);\np[2] = 5;\n{statement}", memory=16)
                self.assertEqual(lines[0], f"test.c:{expected}")
                self.assertIn("abort at test.c:4:1: `p[2]` is 1 word past the end of its bounds", compared(lines))

    def test_stuck(self):
        self.assertEqual(
            bare("p = malloc(2);\nn = n + p[60];")[:7],
            [
                "test.c:4:9: stuck: `p[60]` is 1 word past the end of the memory",
                "    4 | n = n + p[60];",
                "      |         ^~~~~",
                "  wanted: 1 word at 64",
                "  values: p + 60 = 64, p = 4",
                "  ending: stuck at command 1, first unused word 6 of 64",
                "  fenced: abort at test.c:4:9: `p[60]` is 59 words past the end of its bounds; no word differs",
            ],
        )

    def test_stuck_at_a_place(self):
        """The place that the fenced run wanted, where the bare one is stuck at that."""
        past = "past the end of the memory"
        for statements, message, wanted in (
            ("*s = n + 1;", "4:1: stuck: `*s` is at word 0", "1 word at 0"),
            ("*s = (int)malloc(2);", "4:1: stuck: `*s` is at word 0", "1 word at 0"),
            ("*s = (int)&*s;", "4:1: stuck: `*s` is at word 0", "1 word at 0"),
            ("n = s[n];", "4:5: stuck: `s[n]` is at word 0", "1 word at 0"),
            ("n = *(int *)*s;", "4:13: stuck: `*s` is at word 0", "1 word at 0"),
            ("*(s - 1) = 1;", f"4:1: stuck: `*(s - 1)` is 4294967232 words {past}", "1 word at 4294967295"),
            ("p = (struct car *)-1;\np->stop = s;", "5:1: stuck: `p->stop` is at word 0", "1 word at 0"),
            ("p = (struct car *)63;\np->stop = s;", f"5:1: stuck: `p->stop` is 1 word {past}", "1 word at 64"),
            ("n = ((struct row *)64)->floors[0];", f"4:5: stuck: `((struct row *)64)->floors[0]` is 1 word {past}", "1 word at 64"),
            ("*p = *q;", "4:1: stuck: `*p` is at word 0", "2 words at 0"),
            ("p = malloc(2);\n*p = *q;", "5:6: stuck: `*q` is at word 0", "2 words at 0"),
            ("q = (struct car *)63;\n*q = *q;", f"5:1: stuck: `*q` is 1 word {past}", "2 words at 63"),
        ):
            with self.subTest(statements):
                lines = bare(statements, STRUCTS)
                self.assertEqual(lines[0], f"test.c:{message}")
                self.assertEqual(lines[3], f"  wanted: {wanted}")

    def test_stuck_somewhere(self):
        """The only place that the statement can be stuck at, or the statement."""
        place, statement = "is at word 0 or outside the memory", "this statement reads or writes word 0, or outside the memory"
        abort = "s = malloc(1);\ns[1] = 5;\n"
        for statements, message in (
            (f"{abort}n = p->floor + 1;", f"6:5: stuck: `p->floor` {place}"),
            (f"{abort}s[n - 9] = (int)&p->stop;", f"6:1: stuck: `s[n - 9]` {place}"),
            (f"{abort}n = *s + p->floor;", f"6:1: stuck: {statement}"),
            (f"{abort}*p = *q;", f"6:1: stuck: {statement}"),
            ("*s = p->floor;", f"4:1: stuck: {statement}"),
            ("*(&n + 1) = *s;", f"4:1: stuck: {statement}"),
            ("p = (struct car *)62;\n*p = *q;", f"5:1: stuck: {statement}"),
            ("*(int *)&*s = 4;", f"4:1: stuck: `*(int *)&*s` {place}"),
        ):
            with self.subTest(statements):
                lines = bare(statements, STRUCTS)
                self.assertEqual(lines[0], f"test.c:{message}")
                self.assertTrue(lines[3].startswith("  ending: stuck at command "), lines[3])

    def test_of_a_text(self):
        """By the numbers of nodes and variables."""
        for statements, message in (
            ("*p = 1;", "1:42: stuck: node 2, `*v0`, is at word 0"),
            ("*p = *q;", "1:74: stuck: this command reads or writes word 0, or outside the memory"),
        ):
            with self.subTest(statements):
                made, call = asked(statements)
                text = read_text(Source("test.txt", " ".join(bench_text(made.table, call.memory, call.inputs))))
                lines = split(bare_lines(routine_of_text(text), MACHINE, call, *MACHINE.bare([call])))
                self.assertEqual(lines[0], f"test.txt:{message}")
                self.assertEqual(compared(lines), "abort at test.txt:1:42: node 2, `*v0`, follows a pointer without bounds; no word differs")
                self.assertIn("  1  v0 = 0  null", lines)


class Comparisons(unittest.TestCase):
    """What is said of the fenced run."""

    def differ(self, statements, expected, *declarations, **settings):
        with self.subTest(statements):
            self.assertEqual(compared(bare(statements, *declarations, **settings)).partition("; ")[2], expected)

    def test_words_that_differ(self):
        block = "p = malloc(2);\n"
        self.differ(f"{block}p[-3] = 9;", "words that differ: variable p = 9 (fenced: 4)")
        self.differ(f"{block}q = malloc(2);\np[2] = 9;", "words that differ: block 6, [0] = 9 (fenced: 0)")
        self.differ("p[1] = 9;", "words that differ: register q, [0] = 9 (fenced: 8)", registers=[2, 0, 1, 7, 1, 1, 8])
        car = "p = malloc(4);\np[1].floor = 3;\ns = &p->floor;\n"
        self.differ(f"{car}s[2] = 8;", "words that differ: block 5, [1].floor = 8 (fenced: 3)", STRUCTS)

    def test_none_that_differ(self):
        self.differ("q = &*p;", "no word differs")
        self.differ("*p = 1;", "no word differs")
        self.differ("p = (int *)9;\n*p = n;", "no word differs")
        self.differ("n = *p;\nq = &n;", "no word differs")

    def test_words_that_the_fenced_run_did_not_use(self):
        self.differ("p = malloc(2);\np[3] = 9;", "words that differ: word 7 = 9 (fenced: unused)")
        self.differ(
            "p = malloc(1);\np[40] = 1;\nq = malloc(2);\n*q = 5;",
            "words that differ: variable q = 5 (fenced: 0); block 5, [0] = 5 (fenced: unused); word 44 = 1 (fenced: unused)",
        )

    def test_not_too_many(self):
        for count in (NAMED, NAMED + 1):
            statements = "\n".join(f"p[{at}] = 7;" for at in range(count))
            told = [f"word {at} = 7 (fenced: unused)" for at in range(4, 4 + NAMED)] + ["1 more"] * (count - NAMED)
            self.differ(f"p = (int *)4;\n{statements}", f"words that differ: {'; '.join(told)}")

    def test_editions(self):
        """Bare runs of both are the same, and the fenced ones are not."""
        statements = "p = malloc(2);\nn = (int)p;\n*((int *)n + 1) = 7;"
        one, two = (bare(statements, edition=edition) for edition in EDITIONS)
        follows = "abort at test.c:5:1: `*((int *)n + 1)` follows a pointer without bounds"
        self.assertEqual(compared(one), f"{follows}; words that differ: block 4, [1] = 7 (fenced: 0)")
        self.assertEqual(compared(two), "the same result")
        self.assertEqual(without(one, "  fenced: "), without(two, "  fenced: "))


class Memory(unittest.TestCase):
    """The words that a run leaves, by name where that is sure."""

    def has(self, statements, expected, *declarations, **settings):
        """These lines one after the other."""
        with self.subTest(statements):
            lines = bare(statements, *declarations, **settings)
            self.assertIn("\n".join(["", *expected, ""]), "\n".join(["", *lines, ""]))

    def test_pointers(self):
        """What stands at the word that they are the number of; ints have no such remark."""
        for value, note in (
            ("&n", "= 3  -> variable n"),
            ("malloc(2)", "= 4  -> block 4, [0]"),
            ("malloc(0)", "= 0  null"),
            ("(int *)(int)&n", "= 3  -> variable n"),
            ("(int *)malloc(2) + 2", "= 6  -> no word in use"),
            ("(int *)70000", "= 70000  -> no word in use"),
        ):
            self.has(f"p = {value};", [f"  1  p {note}"])
        self.has("n = (int)&n;", ["  3  n = 3"])
        handed = [1, 0, 4, 1, 2, 3, 4]
        self.has("p = p + 1;", ["  1  p = 7  -> register p, [1]"], STRUCTS, registers=handed)
        self.has("", ["register p: 4 words of struct car", "  5  [0].floor = 1", "  6  [0].stop  = 2  -> variable q"], STRUCTS, registers=handed)

    def test_clear_words_are_folded(self):
        self.has("p = malloc(9);\np[8] = 1;", ["  4..11  [0] .. [7] = 0", "     12  [8]        = 1"])

    def test_past_the_first_unused_word(self):
        block = "p = malloc(2);\n"
        self.has(f"{block}p[2] = 9;\np[20] = 8;\np[21] = 0;", [*PAST, "   6  (unused) = 9", "  24  (unused) = 8"])
        self.assertNotIn(PAST[1], bare(f"{block}p[1] = 9;"))
        self.assertNotIn(PAST[1], bare(f"{block}p[2] = 0;"))

    def test_obtained_over_what_was_written(self):
        """The new words are 0, and those behind them stay."""
        statements = "p = malloc(2);\np[2] = 9;\np[3] = 8;\np[4] = 7;\nq = malloc(2);"
        block = ["block 6: 2 words of int, obtained in line 7", "  6  [0] = 0", "  7  [1] = 0"]
        self.has(statements, [*block, *PAST, "  8  (unused) = 7"])
        self.assertNotIn("block 6", compared(bare(statements)))

    def test_blocks_that_the_fenced_run_did_not_obtain(self):
        """By what malloc was cast to. The words of two in one statement are not told apart."""
        abort = "s = malloc(1);\ns[1] = 0;\n"
        car = ["  6  floor = 4", "  7  stop  = 0  null"]
        self.has(f"{abort}p = malloc(2);\np->floor = 4;", ["block 6: 2 words of struct car, obtained in line 6", *car], STRUCTS)
        self.has(f"{abort}n = (int)malloc(2);", ["block 6: 2 words, obtained in line 6", "  6  [0] = 0", "  7  [1] = 0"], STRUCTS)
        both = "words 6 to 8: 3 words, obtained in line 6"
        self.has(f"{abort}*(int *)malloc(2) = (int)malloc(1);", [both, "  6  [0] = 8", "  7  [1] = 0", "  8  [2] = 0"], STRUCTS)
        self.has("*((int *)malloc(1) + 1) = (int)malloc(1);", ["block 6: 1 word, obtained in line 4", "  6  [0] = 6"], STRUCTS)


class Command(unittest.TestCase):
    """`mavis run --bare`: its options, exit status and raw form."""

    def setUp(self):
        folder = tempfile.TemporaryDirectory()
        self.addCleanup(folder.cleanup)
        self.folder = folder.name

    def run_of(self, statements, *options):
        path = Path(self.folder, "test.c")
        path.write_text(routine(statements, PLAIN))
        status, output, error = mavis("run", "--bare", str(path), *options)
        self.assertEqual(error, "")
        return status, output.replace(str(path), "test.c").splitlines()

    def test_status(self):
        for statements, options, status in (
            ("n = 1;", (), 0),
            ("p = malloc(2);\np[2] = 1;", (), 0),
            ("p = malloc(9);", ("--memory", "12"), 2),
            ("n = 1;", ("--memory", "3"), 3),
            ("*p = 1;", (), 4),
            ("*(p + 4096) = 1;", (), 4),
            ("*(p + 4096) = 1;", ("--memory", "4097"), 0),
            ("*(p + n) = 1;", ("--input", "n=4"), 0),
            ("*p = 1;", ("--register", "p=7"), 0),
        ):
            with self.subTest(statements, options=options):
                self.assertEqual(self.run_of(statements, *options)[0], status)

    def test_the_queue_is_overwritten(self):
        status, output, _ = mavis("run", "--bare", SNAPSHOT)
        told, differ = f"abort at {SNAPSHOT}:16:5: `*q` is 1 word past the end of its bounds", "block 3, queue[0] = 9 (fenced: 0)"
        self.assertEqual(status, 0)
        self.assertEqual(output.splitlines()[1], f"  fenced: {told}; words that differ: {differ}")
        self.assertIn("  5  queue[0]    = 9\n", output)

    def test_registers(self):
        status, output, _ = mavis("run", "--bare", BEYOND, "--register", "calls=7,12,4", "faults=21,1")
        self.assertEqual(status, 0)
        self.assertIn("; words that differ: register faults, [0] = 0 (fenced: 21)\n", output)
        self.assertIn("register faults: 2 words of int\n  6  [0] = 0\n  7  [1] = 1\n", output)

    def test_raw(self):
        """The ending, then address and value of words in use, and of those behind them up to the last that is not 0."""
        for statements, lines in (
            ("n = 5;", ["done 4", "1 0", "2 0", "3 5"]),
            ("p = malloc(2);", ["done 6", "1 4", "2 0", "3 0", "4 0", "5 0"]),
            ("p = malloc(1);\np[3] = 8;\n*q = 1;", ["stuck 2 5", "1 4", "2 0", "3 0", "4 0", "5 0", "6 0", "7 8"]),
            ("p = malloc(-1);", ["noroom 0 4", "1 0", "2 0", "3 0"]),
        ):
            with self.subTest(statements):
                self.assertEqual(self.run_of(statements, "--raw")[1], lines)

    def test_raw_is_the_fenced_form_without_bounds(self):
        for name in ("list", "noroom", "row"):
            with self.subTest(name):
                lines = mavis("run", "--raw", f"routines/{name}.txt")[1].splitlines()
                cut = [" ".join(line.split(" ")[:2]) for line in lines[1:]]
                self.assertEqual(mavis("run", "--raw", "--bare", f"routines/{name}.txt")[1].splitlines(), [lines[0], *cut])

    def test_refused(self):
        """As a fenced run is, in words and raw."""
        for words in (
            (SNAPSHOT, "--memory", "2"),
            (BEYOND, "--memory", "5", "--register", "calls=7,12,4"),
            ("routines/nocast.txt",),
        ):
            for raw in ((), ("--raw",)):
                with self.subTest(words, raw=raw):
                    told = mavis("run", "--bare", *words, *raw)
                    self.assertEqual(told[0], 3)
                    self.assertEqual(told, mavis("run", *words, *raw))

    def test_no_text(self):
        path = Path(self.folder, "wrong.txt")
        path.write_text("16 2 0\n")
        self.assertEqual(mavis("run", "--bare", "--raw", str(path)), (3, "input\n", ""))

    def test_bad_use(self):
        for words in (
            *([command, "--bare", SNAPSHOT] for command in ("report", "build", "check", "show")),
            ["run", "--bare"],
            ["run", "--bare=yes", SNAPSHOT],
            ["run", "--bar", SNAPSHOT],
            ["--bare", "run", SNAPSHOT],
        ):
            with self.subTest(words):
                status, output, error = mavis(*words)
                self.assertEqual((status, output, error.count("\n")), (64, "", 1), error)

    def test_help(self):
        output = " ".join(mavis("run", "--help")[1].split())
        self.assertIn("--bare run without bounds, as old controllers do, and compare with the fenced run", output)
        self.assertIn("with --bare address and value alone", output)
        self.assertIn("4 stuck, of a bare run", output)


class RandomRoutines(unittest.TestCase):
    """The routines that the translation is held against gcc with: each word has its line, and where the fenced run does not abort, the bare one
    leaves the same."""

    def test_random_routines(self):
        aborts = 0
        for number in range(150):
            with self.subTest(number):
                random = routines.make(9, number)
                made = translate("random.c", random.for_translation(), random.edition)
                call = call_of(made, random)
                (one,), (other,) = MACHINE.bare([call]), MACHINE.explain([call])
                lines = bare_lines(made, MACHINE, call, one)
                past = [word for word, (value,) in enumerate(one.words) if value and word >= one.unused]
                self.assertEqual(told(lines), [*range(1, one.unused), *past])
                if other.ending == "abort":
                    aborts += 1
                    self.assertRegex(compared(lines), r"^abort at random\.c:\d+:\d+: .*; (no word differs$|words that differ: )")
                else:
                    self.assertEqual(compared(lines), "the same result")
                    self.assertEqual((one.ending, one.command, one.unused), (other.ending, other.command, other.unused))
                    self.assertEqual([value for value, in one.words], [value for value, _, _ in other.words])
        self.assertTrue(0 < aborts < 150)


if __name__ == "__main__":
    unittest.main()
