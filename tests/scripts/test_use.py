"""How the scripts are called: from any folder, with any path; wrong use is told at once."""
import os
import subprocess
import unittest

import texts
from programs import EXAMPLE, ROOT, ROUTINE, RUN, WRONG_USE, ScriptTest, bench

OWN = b"2 1 9 0 0 0 1 0 0 0"
OWN_ANSWER = b"done 2\n1 9 0 0\n"
REGISTER = b"1 0 1 9"
WITH_REGISTER = b"done 4\n1 3 3 4\n2 0 0 0\n3 9 0 0\n"
SNAPSHOT = (ROOT / "routines" / "snapshot.out").read_bytes()


class WrongUse(ScriptTest):
    def test_unknown_names(self):
        for name in "nosuch", "", "-", "--what", "--help", "README.md", "run", "Snapshot", "snap*":
            with self.subTest(name):
                self.assert_refuses(WRONG_USE, RUN, name)
                self.assert_refuses(WRONG_USE, RUN, "--why", name)

    def test_files_that_are_not_there(self):
        for path in "nosuch.txt", "snapshot.txt", "./snapshot", "routines/snapshot.txt", "/nosuch/table", ".txt":
            with self.subTest(path):
                self.assert_refuses(WRONG_USE, RUN, path)
                self.assert_refuses(WRONG_USE, RUN, "--why", path)
                self.assert_refuses(WRONG_USE, EXAMPLE, path)
                self.assert_refuses(1, ROUTINE, path)

    def test_folders(self):
        (self.here / "folder.txt").mkdir()
        for path in "folder.txt", "./", "/":
            with self.subTest(path):
                self.assert_refuses(WRONG_USE, RUN, path)
                self.assert_refuses(WRONG_USE, EXAMPLE, path)
                self.assert_refuses(1, ROUTINE, path)

    def test_too_many_words(self):
        self.write("t.txt", OWN)
        self.assert_refuses(WRONG_USE, RUN, "snapshot", "clear")
        self.assert_refuses(WRONG_USE, RUN, "snapshot", "--why")
        self.assert_refuses(WRONG_USE, RUN, "--why", "--why", "snapshot")
        self.assert_refuses(WRONG_USE, EXAMPLE, "t.txt", "t.txt", "t.txt")
        self.assert_refuses(1, ROUTINE)
        self.assert_refuses(1, ROUTINE, "t.txt", "t.txt", "t.txt")

    def test_registers_that_cannot_be_read(self):
        self.write("t.txt", OWN)
        (self.here / "t.registers").mkdir()
        self.write("u.txt", OWN)
        (self.here / "u.registers").symlink_to("nosuch")
        for name in "t", "u":
            with self.subTest(name):
                self.assert_refuses(WRONG_USE, RUN, name + ".txt")
                self.assert_refuses(WRONG_USE, RUN, "--why", name + ".txt")
                self.assert_refuses(WRONG_USE, EXAMPLE, name + ".txt", name + ".registers")
                self.assert_refuses(1, ROUTINE, name + ".txt", name + ".registers")

    @unittest.skipIf(os.geteuid() == 0, "root reads every file")
    def test_files_without_permission(self):
        self.write("t.txt", OWN)
        (self.here / "t.txt").chmod(0)
        self.assert_refuses(WRONG_USE, RUN, "t.txt")
        self.assert_refuses(WRONG_USE, EXAMPLE, "t.txt")
        self.assert_refuses(1, ROUTINE, "t.txt")


class Paths(ScriptTest):
    def own(self, name, text=OWN, registers=None):
        """Writes a table and its list of registers in the caller's folder."""
        self.write(name + ".txt", text)
        self.write(name + ".registers", registers)

    def test_paths_of_the_callers_folder(self):
        self.own("mine")
        self.own("-mine")
        self.own("two words")
        for path in "mine.txt", "./mine.txt", f"../{self.here.name}/mine.txt", "-mine.txt", "two words.txt", str(self.here / "mine.txt"):
            with self.subTest(path):
                self.assert_answers(OWN_ANSWER, RUN, path)
                self.assert_answers(OWN_ANSWER, EXAMPLE, path)
                self.assertEqual(self.call(RUN, "--why", path).stdout, b"done 2\nthe run did not abort\n")

    def test_path_with_another_ending(self):
        self.write("mine", OWN)
        self.assert_answers(OWN_ANSWER, RUN, "./mine")

    def test_registers_beside_the_table(self):
        self.own("mine", texts.TWO_VARIABLES, REGISTER)
        for path in "mine.txt", "./mine.txt", str(self.here / "mine.txt"):
            with self.subTest(path):
                self.assert_answers(WITH_REGISTER, RUN, path)
        self.assertEqual(self.call(RUN, "--why", "mine.txt").stdout, b"done 4\nthe run did not abort\n")
        self.assert_answers(WITH_REGISTER, EXAMPLE, "mine.txt", "mine.registers")

    def test_names_are_of_the_folder_of_routines(self):
        self.own("snapshot", OWN, b"17")
        self.write("snapshot", OWN)
        self.assert_answers(SNAPSHOT, RUN, "snapshot")
        self.assert_answers(SNAPSHOT, RUN)
        self.assert_answers(b"refused 13 0\n", RUN, "snapshot.txt")

    def test_script_by_a_relative_path(self):
        self.own("mine")
        self.assert_answers(OWN_ANSWER, os.path.relpath(RUN, self.here), "mine.txt")
        self.assert_answers(OWN_ANSWER, os.path.relpath(EXAMPLE, self.here), "mine.txt")

    def test_folders_that_cd_looks_in(self):
        for name in "routines", "examples":
            (self.folder / "other" / name).mkdir(parents=True)
        self.here = ROOT
        self.assert_answers(SNAPSHOT, "routines/run", "snapshot", CDPATH=str(self.folder / "other"))
        self.assert_answers(SNAPSHOT, "examples/run", CDPATH=str(self.folder / "other"))

    def test_table_from_a_pipe(self):
        self.assertEqual(self.call(RUN, "/dev/stdin", text=OWN).stdout, OWN_ANSWER)
        self.assertEqual(self.call(RUN, "--why", "/dev/stdin", text=OWN).stdout, b"done 2\nthe run did not abort\n")


class WithRt(unittest.TestCase):
    """A few runs with rt itself, which has nothing to prove by now: the answer is all that is printed."""

    def assert_prints(self, answer, *command):
        done = subprocess.run(command, cwd="/", capture_output=True)
        self.assertEqual((done.stdout, done.stderr, done.returncode), (answer, b"", 0))

    def test_routines(self):
        self.assert_prints(SNAPSHOT, RUN)
        self.assert_prints((ROOT / "routines" / "beyond.out").read_bytes(), RUN, "beyond")
        why = b"abort 3 8\ncommand 3, node 20 (a follow): wanted 1 word at 6, past the end of the pointer's bounds [3, 6), in register 0 of variable 0\n"
        self.assert_prints(why, RUN, "--why", "beyond")

    def test_example(self):
        self.assert_prints(SNAPSHOT, EXAMPLE)
        table = ROOT / "routines" / "beyond.txt"
        path = os.path.relpath(table, "/")
        self.assert_prints(bench(table.read_bytes()), EXAMPLE, path)
        self.assert_prints((ROOT / "routines" / "beyond.out").read_bytes(), EXAMPLE, path, path.replace(".txt", ".registers"))
