"""Every text and every list of registers is answered as the bench program and docs/TABLE.md say, by each way to run it."""
import shutil
import subprocess

import texts
from programs import ARCHIVE, ROOT, ROUTINE, RUN, ScriptTest, bench

INPUT = b"input\n"


def first_line(answer):
    return answer[: answer.index(b"\n") + 1]


class Answers(ScriptTest):
    def assert_why(self, answer):
        """routines/run --why prints the first line, then one line after a run and nothing after a refusal."""
        done = self.call(RUN, "--why", "t.txt")
        self.assertEqual((done.stderr, done.returncode), (b"", 0))
        self.assertEqual(first_line(done.stdout), first_line(answer))
        ran = not answer.startswith((b"refused", b"input"))
        self.assertEqual(done.stdout.count(b"\n"), 1 + ran, done.stdout)

    def assert_all_answer(self, answer, text, registers=None):
        """The two scripts and the example in C give this answer."""
        self.write("t.txt", text)
        self.write("t.registers", registers)
        self.assert_answers(answer, RUN, "t.txt")
        self.assert_why(answer)
        self.assert_answers(answer, ROUTINE, "t.txt", *["t.registers"] * (registers is not None))

    def assert_text(self, text):
        """A text is answered as the bench program does, also beside a list of no registers."""
        self.assert_all_answer(bench(text), text)
        self.assert_all_answer(bench(text), text, b"0")

    def test_texts_of_the_page(self):
        for text, output in texts.page_texts():
            with self.subTest(text):
                self.assertEqual(bench(text), output)
                self.assert_text(text)

    def test_good_texts(self):
        for name, text in texts.GOOD_TEXTS.items():
            with self.subTest(name):
                self.assertNotEqual(bench(text), INPUT)
                self.assert_text(text)

    def test_bad_texts(self):
        for name, text in texts.BAD_TEXTS.items():
            with self.subTest(name):
                self.assertEqual(bench(text), INPUT)
                self.assert_text(text)

    def test_other_bytes_in_a_text(self):
        for byte in texts.OTHER_BYTES:
            with self.subTest(byte):
                self.assert_all_answer(INPUT, b"1" + byte + texts.EMPTY_RUN[2:], b"0")

    def test_other_bytes_in_a_list(self):
        for byte in b"\0", b"\t", b"\v", b"\f", b"\r", b"-", b"+", b".", b"/", b":", b";", b"a", b"x", b"\x85", b"\xa0", b"\xff":
            with self.subTest(byte):
                self.assert_all_answer(INPUT, texts.EMPTY_RUN, b"0" + byte)
                self.assert_all_answer(INPUT, texts.EMPTY_RUN, byte + b" 0")

    def test_lists_of_the_page(self):
        for registers, answer in texts.page_lists():
            with self.subTest(registers):
                self.assert_all_answer(answer, texts.TWO_VARIABLES, registers)

    def test_lists(self):
        for name, (registers, answer) in texts.LISTS.items():
            with self.subTest(name):
                self.assert_all_answer(answer, texts.TWO_VARIABLES, registers)

    def test_bad_lists(self):
        for name, registers in texts.BAD_LISTS.items():
            with self.subTest(name):
                self.assert_all_answer(INPUT, texts.TWO_VARIABLES, registers)

    def test_long_lists(self):
        for name, (registers, answer) in texts.LONG_LISTS.items():
            with self.subTest(name):
                self.write("t.txt", texts.TWO_VARIABLES)
                self.write("t.registers", texts.numbers(registers))
                self.assert_answers(answer, RUN, "t.txt")

    def test_table_is_judged_before_the_list(self):
        for registers in b"", b"17":
            with self.subTest(registers):
                self.assert_all_answer(b"refused 2 6\n", b"1 0 0 0 0 0 0 0 9", registers)
                self.assert_all_answer(b"refused 10 0\n", b"0 0 0 0 0 0 0 0", registers)
                self.assert_all_answer(b"refused 11 1\n", b"6 0 0 0 0 1 1 0 0", registers)
                self.assert_all_answer(INPUT, b"1 0 0 0 0 0 0 0 x", registers)

    def test_bad_list_beside_a_refused_table(self):
        self.assert_all_answer(INPUT, b"1 0 0 0 0 0 0 0 9", b"x")


class Routines(ScriptTest):
    def test_routines_of_the_folder(self):
        for output in (ROOT / "routines").glob("*.out"):
            with self.subTest(output.stem):
                answer = output.read_bytes()
                self.assert_answers(answer, RUN, output.stem)
                told = self.call(RUN, "--why", output.stem).stdout
                self.assertEqual(first_line(told), first_line(answer))

    def test_routines_in_c(self):
        for output in (ROOT / "routines").glob("*.out"):
            with self.subTest(output.stem):
                registers = output.with_suffix(".registers")
                lists = [registers] * registers.exists()
                self.assert_answers(output.read_bytes(), ROUTINE, output.with_suffix(".txt"), *lists)

    def test_snapshot_is_run_without_a_name(self):
        answer = (ROOT / "routines" / "snapshot.out").read_bytes()
        self.assert_answers(answer, RUN)
        self.assertEqual(first_line(self.call(RUN, "--why").stdout), first_line(answer))

    def test_example_compiles_without_a_warning(self):
        flags = ["-std=c99", "-O2", "-Wall", "-Wextra", "-Wpedantic", "-Werror", f"-I{ROOT / 'include'}"]
        subprocess.run([shutil.which("cc"), *flags, "-o", self.folder / "routine", ROOT / "examples" / "routine.c", ARCHIVE], check=True)
