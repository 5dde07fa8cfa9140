"""No old build is used, and nothing is built without need. To prove a changed source would take minutes, so here the scripts are run in a folder
with copies of them, with programs that say which build they are, and with a stand-in for rt that builds others."""
from programs import ARCHIVE, ROOT, ScriptTest, copy_scripts

SNAPSHOT = (ROOT / "routines" / "snapshot.out").read_bytes()

# A program of the copy that prints a word whatever it reads.
PROGRAM = """printf '#!/bin/sh\\ncat > /dev/null\\necho {}\\n' > out/${{PWD##*/}}
chmod +x out/${{PWD##*/}}
"""

# What rt prints of a crate that it has proved, built and run.
LOG = """cat >&2 << END
rt: words: begins with what a check kept in /elsewhere/crates/words
rt: chose --jobs 2 for words
fn words::long: proved
logic=proved functions=1 statements=trusted
rt: chose --jobs 2 for ${PWD##*/}
fn main: proved
a note
logic=proved functions=1 statements=trusted
linked target=x86_64-unknown-linux-gnu
rt: running out/${PWD##*/}; to give it other input, run that file yourself
END
echo 'what a program prints'
"""

FAILED_LOG = """cat >&2 << END
rt: chose --jobs 2 for words
fn words::long: proved
logic=proved functions=1 statements=trusted
rt: chose --jobs 2 for ${PWD##*/}
fn main: not proved
an error
rattle build: nothing was built, since only a proved crate is built
END
exit 1
"""


class Copied(ScriptTest):
    def setUp(self):
        super().setUp()
        self.copy = self.folder / "copy"
        copy_scripts(self.copy)
        self.run = self.copy / "routines" / "run"
        self.example = self.copy / "examples" / "run"

    def assert_says(self, answer, said, *command):
        """The command prints this answer, and on standard error lines that these patterns match."""
        done = self.call(*command)
        self.assertEqual((done.stdout, done.returncode), (answer, 0), done.stderr)
        self.assertRegex(done.stderr.decode(), "".join([r"\A", *(line + "\n" for line in said), r"\Z"]))

    def assert_fails(self, said, *command):
        """The command answers nothing, says this line, and none of the crate that is proved."""
        done = self.call(*command)
        self.assertEqual((done.stdout, done.returncode), (b"", 1), done.stderr)
        self.assertIn(said, done.stderr.decode().splitlines())
        self.assertNotIn(b"fn words::long", done.stderr)


class Programs(Copied):
    def setUp(self):
        super().setUp()
        for program in "bench", "replay", "why":
            self.write_program(program, "#!/bin/sh\ncat > /dev/null\necho old\n")
        self.uses = {"bench": ["snapshot"], "replay": ["beyond"], "why": ["--why", "snapshot"]}

    def write_program(self, program, text):
        file = self.copy / "crates" / program / "out" / program
        file.write_text(text)
        file.chmod(0o755)

    def test_rt_is_asked_each_time(self):
        for program, words in self.uses.items():
            for _ in range(2):
                self.assert_answers(b"old\n", self.run, *words)
                self.assertEqual(self.rt_calls(), [f"run in {program}"])

    def test_new_build_is_used(self):
        for word in "new", "newer":
            self.stand_in(PROGRAM.format(word))
            for program, words in self.uses.items():
                with self.subTest(program):
                    self.assert_answers(f"{word}\n".encode(), self.run, *words)

    def test_failed_build_is_not_used(self):
        self.stand_in(PROGRAM.format("new") + FAILED_LOG)
        for program, words in self.uses.items():
            with self.subTest(program):
                for line in "fn main: not proved", "an error", "rattle build: nothing was built, since only a proved crate is built":
                    self.assert_fails(line, self.run, *words)

    def test_log_is_not_printed(self):
        self.stand_in(LOG)
        for program, words in self.uses.items():
            with self.subTest(program):
                said = [rf"routines/prove: {crate} proved \([0-9]+ s\)" for crate in ("words", program)]
                self.assert_says(b"old\n", said, self.run, *words)

    def test_first_build_is_told_of(self):
        (self.copy / "crates" / "bench" / "out" / "bench").unlink()
        (self.copy / "crates" / "bench" / "out").rmdir()
        self.stand_in("mkdir out\n" + PROGRAM.format("new"))
        said = "routines/prove: proving bench and what is under it; the first time this takes some minutes"
        self.assert_says(b"new\n", [said], self.run)

    def test_program_that_is_not_of_rt(self):
        """Whatever lies in target/bin, it is what rt built that is run."""
        self.assert_answers(b"old\n", self.run)
        (self.copy / "target" / "bin" / "bench").write_text("#!/bin/sh\necho another\n")
        self.assert_answers(b"old\n", self.run)

    def test_program_that_answers_nothing(self):
        for program in "replay", "why":
            self.write_program(program, "#!/bin/sh\ncat > /dev/null\n")
            self.assertEqual(self.call(self.run, *self.uses[program]).returncode, 1)


class Archive(Copied):
    """The library for C. Its stand-in is the one that was proved; an old one is an empty file, with which nothing can be linked."""

    def setUp(self):
        super().setUp()
        self.source = self.folder / "source"
        self.archive = self.copy / "target" / "staticlib" / "libcapi.a"
        self.source.write_text("first")
        self.have_rt_build()
        self.assert_builds()

    def have_rt_build(self, then=""):
        """In capi rt notes what the source is; in capi_c it makes the archive, and then does this."""
        note = f'cp "{self.source}" out/rlib/stamp'
        make = f'cp "{ARCHIVE}" out/libcapi_c.a\n{then}'
        self.stand_in(f"case ${{PWD##*/}} in\ncapi) {note} ;;\ncapi_c) {make} ;;\nesac\n{LOG}")

    def assert_builds(self):
        """The archive is built and works; the log of that is not printed."""
        done = self.call(self.example)
        self.assertEqual((done.stdout, done.returncode), (SNAPSHOT, 0), done.stderr)
        self.assertEqual(self.rt_calls(), ["lib in capi", "lib in capi_c"])
        self.assertNotIn(b"fn main", done.stderr)
        self.assertIn(b"tools/archive: building target/staticlib/libcapi.a\n", done.stderr)

    def assert_does_not_build(self):
        """The archive that is there is used."""
        done = self.call(self.example)
        self.assertEqual((done.stdout, done.returncode), (SNAPSHOT, 0), done.stderr)
        self.assertEqual(self.rt_calls(), ["lib in capi"])

    def test_unchanged_archive_is_used_again(self):
        self.assert_does_not_build()
        self.assert_does_not_build()

    def test_changed_source(self):
        self.source.write_text("second")
        self.assert_builds()
        self.assert_does_not_build()

    def test_changed_source_of_what_c_links(self):
        (self.copy / "crates" / "capi_c" / "src" / "lib.rt").write_text("second")
        self.assert_builds()
        self.assert_does_not_build()

    def test_archive_built_by_hand(self):
        """From another source, which is the first again by now."""
        self.archive.write_bytes(b"")
        self.assert_builds()
        self.assert_does_not_build()

    def test_archive_removed(self):
        self.archive.unlink()
        self.assert_builds()

    def test_note_of_the_build_removed(self):
        for file in self.archive.parent.iterdir():
            if file != self.archive:
                file.unlink()
        self.assert_builds()

    def test_no_stamp(self):
        """Without rt's stamp nothing is known of the archive, so it is built each time."""
        self.stand_in(f'case ${{PWD##*/}} in\ncapi) rm -f out/rlib/stamp ;;\ncapi_c) cp "{ARCHIVE}" out/libcapi_c.a ;;\nesac')
        self.assert_builds()
        self.assert_builds()

    def test_crate_is_not_proved(self):
        self.stand_in(FAILED_LOG)
        self.assert_fails("fn main: not proved", self.example)
        self.assertEqual(self.rt_calls(), ["lib in capi"])

    def test_archive_is_not_built(self):
        self.source.write_text("second")
        self.have_rt_build(then=FAILED_LOG)
        self.assert_fails("an error", self.example)
        self.rt_calls()
        self.have_rt_build()
        self.assert_builds()

    def test_example_is_not_compiled(self):
        (self.copy / "examples" / "routine.c").write_text("int main(void) { return }")
        done = self.call(self.example)
        self.assertEqual((done.stdout, done.returncode), (b"", 1))

    def test_changed_example_is_compiled(self):
        (self.copy / "examples" / "routine.c").write_text('#include <stdio.h>\nint main(void) { return puts("new") < 0; }')
        self.assertEqual(self.call(self.example).stdout, b"new\n")


class Gate(ScriptTest):
    """.ci/run ends as rt does, and fails on an edit that is bad."""

    def assert_ends(self, status, *lines, rt_status=0):
        said = "".join(f"{line}\n" for line in lines)
        self.stand_in(f"cat << END\n{said}END\nexit {rt_status}")
        done = self.call(ROOT / ".ci" / "run", CI="true")
        self.assertEqual((done.stdout.decode(), done.stderr, done.returncode), (said, b"", status))
        self.assertEqual(self.rt_calls(), [f"ci in {ROOT.name}"])

    def test_all_is_well(self):
        self.assert_ends(0, "rt: ok; handles allowed: none; must-fail edits: 80 refused; every proof was done in this run", "120 passed, 0 failed")

    def test_rt_fails(self):
        for status in 1, 2:
            self.assert_ends(status, "rt: FAILED: words", "119 passed, 1 failed", rt_status=status)

    def test_bad_edits(self):
        for number in 1, 12:
            line = f"rt: ok; handles allowed: none; must-fail edits: 80 refused, {number} bad; every proof was done in this run"
            self.assert_ends(1, line, "120 passed, 0 failed")
