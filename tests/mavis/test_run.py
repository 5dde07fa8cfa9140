"""What `mavis run` prints, its exit status, and how it comes by the machine."""

import os
import stat
import subprocess
import sys
import tempfile
import unittest
from pathlib import Path

from support import DECLARATIONS, MACHINE, ROOT, mavis, routine
from workbench.machine import crates_below

PROVED = "logic=proved functions=1"  # what rt's log of a proved crate ends with


def in_file(folder, text, name="test.c"):
    path = Path(folder, name)
    path.write_text(text)
    return str(path)


class Runs(unittest.TestCase):
    """Runs of small routines."""

    def setUp(self):
        folder = tempfile.TemporaryDirectory()
        self.addCleanup(folder.cleanup)
        self.folder = folder.name

    def lines(self, statements, *options, declarations="int *p, *q; int n;\n"):
        """Exit status and lines of a run of these statements."""
        path = in_file(self.folder, routine(statements, declarations))
        status, output, error = mavis("run", path, *options)
        self.assertEqual(error, "")
        return status, output.replace(path, "test.c").splitlines()

    def test_status(self):
        for statements, options, status in (
            ("n = 1;", (), 0),
            ("*p = 1;", (), 1),
            ("p = malloc(9);", ("--memory", "12"), 2),
            ("p = malloc(8);", ("--memory", "12"), 0),
            ("n = 1;", ("--memory", "3"), 3),
            ("n = 1;", ("--memory", "4"), 0),
            ("n = 1;", ("--memory", "65536"), 0),
            ("n = 1;", ("--register", "p=" + ",".join(["7"] * 9), "--memory", "12"), 3),
            ("n = *p;", ("--register", "p=7", "--memory", "12"), 0),
            ("n = *p;", ("--register", "p="), 1),
        ):
            with self.subTest(statements, options=options):
                self.assertEqual(self.lines(statements, *options)[0], status)

    def test_what_words_are(self):
        statements = "p = malloc(2);\n*(int *)&p = 50;\nq = (int *)4;\nr = &q;\ns = malloc(0);"
        told = self.lines(statements, declarations="int *p, *q, **r, *s;\n")[1]
        self.assertIn("  1  p = 50  -> no word in use, outside its bounds [5, 7): block 5", told)
        self.assertIn("  2  q = 4   no bounds", told)
        self.assertIn("  3  r = 2   -> variable q, bounds [2, 3): variable q", told)
        self.assertIn("  4  s = 0   null", told)

    def test_ints_over_pointers(self):
        told = self.lines("r = (int **)malloc(2);\n*r = &n;\np = (int *)r;\n*p = 7;", declarations="int **r, *p; int n;\n")[1]
        self.assertIn("  4  [0] = 7  -> no word in use, outside its bounds [3, 4): variable n", told)
        told = self.lines("p = malloc(2);\n*(int **)p = &n;\n*p = 7;")[1]
        self.assertIn("  4  [0] = 7  an int over bounds [3, 4): variable n", told)

    def test_blocks_and_their_commands(self):
        told = self.lines("p = malloc(3);\n*(int *)malloc(2) = (int)malloc(n + 4);\nq = malloc(0);\nq = malloc(1);", "--input", "n=1")[1]
        headings = [line for line in told if line.startswith("block")]
        self.assertEqual(
            headings,
            [
                "block 4: 3 words of int, obtained in line 3",
                "block 7: 2 words of int, obtained in line 4",
                "block 9: 5 words, obtained in line 4",
                "block 14: 1 word of int, obtained in line 6",
            ],
        )

    def test_records_in_a_row_and_cut_short(self):
        declarations = "struct car { int floor; int stops[2]; };\nstruct car *p, *q; int *s; void *v;\n"
        told = self.lines("p = malloc(6);\np = p + 1;\ns = p->stops;\nq = malloc(2);\nv = &q->floor;", declarations=declarations)[1]
        self.assertIn("  1  p = 8   -> block 5, [1], bounds [5, 11): block 5", told)
        self.assertIn("  3  s = 9   -> block 5, [1].stops[0], bounds [9, 11): block 5, [1].stops", told)
        self.assertIn("  4  v = 11  -> block 11, floor, bounds [11, 12): block 11, floor", told)
        self.assertIn("  12  stops[0] = 0", told)

    def test_a_block_by_the_pointer_that_leads_to_it(self):
        declarations = "struct s { int a; int b; };\nstruct s *p; void *v;\n"
        told = self.lines("v = malloc(2);\np = v;\np->b = 4;", declarations=declarations)[1]
        self.assertIn("  4  b = 4", told)

    def test_clear_words_are_folded(self):
        told = self.lines("p = malloc(5000);\np[4] = 1;", "--memory", "6000")[1]
        self.assertIn("     4..7  [0] .. [3]    = 0", told)
        self.assertIn("  9..5003  [5] .. [4999] = 0", told)

    def test_aborts_by_reason(self):
        for statements, expected in (
            ("n = p[n];", ["wanted: 1 word at 0", "bounds: none", "values: p + n = 0, p = 0, n = 0"]),
            (
                "p = malloc(2);\n p[-3] = n;",
                ["wanted: 1 word at 1: variable p", "bounds: [4, 6): block 4, obtained in line 3", "missed: 3 words before the base"],
            ),
            ("p = malloc(2);\n p[4] = n;", ["wanted: 1 word at 8", "missed: 3 words past the end"]),
            ("p = &n;\n p[1] = n;", ["bounds: [3, 4): variable n", "missed: 1 word past the end"]),
        ):
            with self.subTest(statements):
                told = "\n".join(self.lines(statements)[1])
                for line in expected:
                    self.assertIn(f"  {line}\n", told)

    STRUCTS = "struct car { int floor; int *stop; };\nstruct car *p, *q; int n;\n"

    def test_struct_assignments(self):
        """All words with their bounds, exactly and by overlap, and how many they were."""
        statements = "p = malloc(4);\np->floor = 5;\np->stop = &n;\np[1] = *p;\nq = (struct car *)((int *)p + 1);\n*q = *p;"
        told = self.lines(statements, declarations=self.STRUCTS)[1]
        self.assertIn("  4  (words copied) = 2", told)
        block = told[told.index("block 5: 4 words of struct car, obtained in line 4") + 1 :]
        self.assertEqual(
            block,
            [
                "  5  [0].floor = 5",
                "  6  [0].stop  = 5  no bounds",
                "  7  [1].floor = 3  an int over bounds [3, 4): variable n",
                "  8  [1].stop  = 3  -> variable n, bounds [3, 4): variable n",
            ],
        )

    def test_aborts_of_struct_assignments(self):
        for statements, expected in (
            (
                "p = malloc(2);\nq = malloc(1);\n*q = *p;",
                ["abort: `*q` is 1 word past the end of its bounds", "wanted: 2 words at 7: block 7", "values: q = 7"],
            ),
            (
                "p = malloc(2);\nq = malloc(1);\n*p = *q;",
                ["abort: `*q` is 1 word past the end of its bounds", "wanted: 2 words at 7: block 7", "values: q = 7"],
            ),
            (
                "p = malloc(4);\np[1] = p[n - 1];",
                ["abort: `p[n - 1]` is 2 words before the base", "wanted: 2 words at 3: variable n", "values: p + (n - 1) = 3, p = 5, n = 0"],
            ),
            ("*p = *q;", ["abort: `*p` follows a pointer without bounds", "wanted: 2 words at 0\n", "bounds: none", "values: p = 0"]),
            (
                "p = malloc(5);\n*p = p[2];",
                ["abort: `p[2]` is 1 word past the end", "wanted: 2 words at 9: block 5, [2]", "missed: 1 word past the end"],
            ),
        ):
            with self.subTest(statements):
                status, told = self.lines(statements, declarations=self.STRUCTS)
                self.assertIn("  4  (words copied) = 0", told)
                told = "\n".join(told)
                self.assertEqual([status, *(line for line in expected if line not in told)], [1])

    def test_struct_assignments_of_a_text(self):
        """The struct that failed by name, and the variables by number."""
        path = in_file(self.folder, routine("p = malloc(2);\n*p = p[n];", self.STRUCTS))
        text = str(Path(self.folder, "test.txt"))
        mavis("build", path, "--input", "n=1", "-o", text)
        output = mavis("run", text)[1]
        self.assertIn("abort: `v0[v2]` in node 12, `copy(v0, v0 + v2)`, is 2 words past the end of its bounds\n", output)
        self.assertIn("  4  v3 = 0\n", output)

    def test_no_room_asked_and_left(self):
        for statements, options, expected in (
            ("p = malloc(n);", ("--input", "n=13", "--memory", "16"), "`malloc(n)` asks for 13 words, and 12 words of 16 are left"),
            ("p = malloc(12);\nq = malloc(1);", ("--memory", "16"), "`malloc(1)` asks for 1 word, and 0 words of 16 are left"),
            ("p = malloc(-1);", (), "`malloc(-1)` asks for more than 65532 words, and 4092 words of 4096 are left"),
            (
                "*(int *)malloc(2) = (int)malloc(n);",
                ("--input", "n=13", "--memory", "16"),
                "malloc asks for 13 words, and 10 words of 16 are left",
            ),
        ):
            with self.subTest(statements):
                self.assertIn(f"no room: {expected}", self.lines(statements, *options)[1][0])

    def test_registers_from_a_file(self):
        in_file(self.folder, "7 12\n4\n", "calls")
        told = self.lines("n = p[2];", "--register", f"p=@{self.folder}/calls", "q=0x10,-1")[1]
        self.assertIn("  3  n = 4", told)
        self.assertIn("  8  [1] = 4294967295", told)


class Use(unittest.TestCase):
    """Bad use: one line on standard error, nothing on standard output, status 64."""

    def test_bad_use(self):
        snapshot, noroom, beyond = "routines/snapshot.c", "routines/noroom.c", "routines/beyond.c"
        for arguments in (
            [],
            ["fly", snapshot],
            ["run"],
            ["run", "routines/nothing.c"],
            ["run", "routines"],
            ["run", snapshot, "snapshot.txt"],
            ["run", snapshot, "--memory"],
            ["run", snapshot, "--memory", "65537"],
            ["run", snapshot, "--memory", "many"],
            ["run", snapshot, "--mem", "16"],
            ["run", noroom, "--input", "floor=3"],
            ["run", noroom, "--input", "floors"],
            ["run", noroom, "--input", "floors="],
            ["run", noroom, "--input", "floors=4294967296"],
            ["run", noroom, "--input", "floors=-2147483649"],
            ["run", noroom, "--input", "calls=3"],
            ["run", noroom, "--register", "floors=3"],
            ["run", "routines/take.c", "--input", "(words copied)=3"],
            ["build", "routines/take.c", "--input", "(words copied)=3"],
            ["run", "routines/take.c", "--register", "(words copied)=3"],
            ["run", beyond, "--register", "calls=1", "calls=2"],
            ["run", beyond, "--register", "calls=1,two"],
            ["run", beyond, "--register", "calls=@routines/nothing"],
            ["run", beyond, "--register", "calls=@README.md"],
            ["run", "routines/noroom.txt", "--input", "v3=1"],
            ["build", "routines/noroom.txt"],
            ["build", noroom, "--memory", "4097"],
            ["build", noroom, "-o", "nowhere/noroom.txt"],
            ["build", noroom, "--edition", "3"],
            ["build", noroom, "--edition", "0"],
            ["run", noroom, "--edition", "two"],
            ["run", noroom, "--edition"],
            ["run", "routines/noroom.txt", "--edition", "1"],
            ["report", "routines/noroom.txt", "--edition", "2"],
            ["show", "routines/keep.txt", "--edition", "2"],
            ["check", "routines/keep.txt", "--edition", "1"],
            ["check"],
        ):
            with self.subTest(arguments):
                status, output, error = mavis(*arguments)
                self.assertEqual((status, output, error.count("\n")), (64, "", 1), error)
                self.assertTrue(error.startswith("mavis"), error)

    def test_what_can_be_named(self):
        error = mavis("run", "routines/take.c", "--input", "snap=3")[2]
        self.assertEqual(error, "mavis: --input: there is no variable snap; there are: live, snapshot, stop\n")

    def test_help(self):
        for arguments in (["--help"], ["run", "--help"], ["build", "--help"], ["check", "--help"]):
            status, output, error = mavis(*arguments)
            self.assertEqual((status, error), (0, ""))
            self.assertIn("example:\n  mavis ", output)
            self.assertIn("exit status:", output)


class Building(unittest.TestCase):
    """How the command comes by the machine, with commands of other names in place of the toolchain."""

    def with_rt(self, script, *arguments):
        """Runs mavis with a command rt that does this; what it was called with is in the file `called`."""
        with tempfile.TemporaryDirectory() as folder:
            path = Path(folder, "rt")
            path.write_text(f'#!/bin/sh\necho "$* in ${{PWD##*/}}" >> "{folder}/called"\n{script}\n')
            path.chmod(path.stat().st_mode | stat.S_IXUSR)
            result = mavis(*arguments, PATH=f"{folder}:{os.environ['PATH']}")
            return result, Path(folder, "called").read_text() if Path(folder, "called").exists() else ""

    def setUp(self):
        MACHINE.check([0] * 6)  # the programs are there, whatever stands in place of rt
        subprocess.run([ROOT / "routines/prove", "why"], check=True)

    def test_every_use_asks_rt(self):
        script = "echo 'rt: nothing has changed since the last proved build' >&2"
        (status, _, error), called = self.with_rt(script, "check", "routines/list.txt")
        self.assertEqual((status, error, called), (0, "", "run in replay\n"))

    def test_one_progress_line(self):
        first, second = crates_below("replay")[:2]
        lines = [f"rt: chose --jobs 2 for {first}", "a line of the log", PROVED, f"rt: chose --jobs 2 for {second}", PROVED]
        script = "\n".join(f"echo '{line}' >&2" for line in lines)
        (status, _, error), _ = self.with_rt(script, "check", "routines/list.txt")
        self.assertEqual((status, error.count("\n")), (0, 1))
        self.assertRegex(error, rf"{second}, 2 of [0-9]+ crates, [0-9]+ s *\n")

    def test_one_build_at_a_time(self):
        """Two commands at once: rt is asked by one after the other."""
        with tempfile.TemporaryDirectory() as folder:
            path = Path(folder, "rt")
            path.write_text(f'#!/bin/sh\necho begin >> "{folder}/log"\nsleep 0.5\necho end >> "{folder}/log"\n')
            path.chmod(path.stat().st_mode | stat.S_IXUSR)
            scripts = [[sys.executable, ROOT / "mavis", "check", "routines/list.txt"], [ROOT / "routines/run", "--why", "list"]]
            environment = {**os.environ, "PATH": f"{folder}:{os.environ['PATH']}"}
            runs = [
                subprocess.Popen(each, cwd=ROOT, env=environment, stdout=subprocess.DEVNULL, stderr=subprocess.DEVNULL) for each in scripts
            ]
            self.assertEqual([run.wait() for run in runs], [0, 0])
            self.assertEqual(Path(folder, "log").read_text().split(), ["begin", "end"] * 2)

    def test_a_failed_build_is_told(self):
        (status, output, error), _ = self.with_rt("echo 'fn steps: not proved' >&2; exit 1", "check", "routines/list.txt")
        self.assertEqual((status, output), (3, ""))
        self.assertIn("not proved", error)
        self.assertIn("routines/prove replay failed", error)

    def test_without_rt(self):
        path = os.pathsep.join(part for part in os.environ["PATH"].split(os.pathsep) if not Path(part, "rt").exists())
        status, output, error = mavis("check", "routines/list.txt", PATH=path)
        self.assertEqual((status, output, error.count("\n")), (64, "", 1))
        self.assertIn("rt", error)
        status, output, _ = mavis("build", "routines/list.c", PATH=path)
        self.assertEqual((status, output[:3]), (0, "409"))

    def test_without_pycparser(self):
        with tempfile.TemporaryDirectory() as folder:
            in_file(folder, "raise ImportError", "pycparser.py")
            status, output, error = mavis("check", "routines/list.c", PYTHONPATH=folder)
            self.assertEqual((status, output, error.count("\n")), (64, "", 1))
            self.assertIn("apt-get install python3-pycparser", error)
            for command in ("run", "check", "show", "report"):
                self.assertEqual(mavis(command, "routines/list.txt", PYTHONPATH=folder)[0], 0, command)

    def test_from_another_folder(self):
        with tempfile.TemporaryDirectory() as folder:
            in_file(folder, DECLARATIONS + "void f(void) { n = 3; }", "mine.c")
            status, output, _ = mavis("run", "mine.c", folder=folder)
            self.assertEqual((status, output.split("\n")[0]), (0, "mine.c: done, first unused word 8 of 4096"))
            link = Path(folder, "mavis")
            link.symlink_to(ROOT / "mavis")
            self.assertEqual(os.system(f"cd {folder} && ./mavis check mine.c > checked"), 0)


if __name__ == "__main__":
    unittest.main()
