"""Every example of the documents is tried, and has to do what the page says. pages.py says how a page is written."""

import subprocess
import tempfile
import unittest

from pages import ROOT, Page, Trial
from workbench import machine

# Commands that a block ```console not-run may have: the gate, long builds, and these tests themselves.
NOT_RUN = {
    ".ci/run",
    "tests/compare SEED COUNT",
    "tests/workbench",
    "perf/run",
    "examples/run",
    "tools/archive capi",
    "tools/archive capi_explain",
    "python3 -m unittest discover -s tests/mavis",
    "apt-get install python3-pycparser",
}

# Indented blocks that need no check, by their first lines.
UNCHECKED = {"README.md": {".ci/run", "tests/compare SEED COUNT"}}


def build(page):
    """Builds the programs that a page's commands run, so that no proving is printed. rt looks at every file: no old program is used."""
    machine.build()
    if any(block.info == "console" and "routines/run" in "\n".join(block.lines) for block in page.blocks):
        for program in ("bench", "why"):
            subprocess.run([ROOT / "routines/prove", program], check=True, stderr=subprocess.DEVNULL)


class Pages(unittest.TestCase):
    """The documents."""

    def tried(self, name, unchecked):
        """Tries a page, and gives the number of commands that were run and of files that were shown."""
        page = Page(name)
        build(page)
        with tempfile.TemporaryDirectory() as folder:
            trial = Trial(page, folder, NOT_RUN, unchecked)
            complaints = trial.complaints()
        if complaints:
            self.fail("\n\n".join(["", *complaints]))
        return trial.commands, trial.files

    def test_readme(self):
        commands, _ = self.tried("README.md", UNCHECKED["README.md"])
        self.assertGreater(commands, 0)

    def test_c(self):
        commands, files = self.tried("docs/C.md", ())
        self.assertGreater(commands, 0)
        self.assertGreater(files, 0)

    def test_routines(self):
        self.tried("routines/README.md", ())

    def test_table(self):
        self.tried("docs/TABLE.md", None)  # its tables and its other blocks are checked in test_table_page.py


RIGHT = """
```c one.c
int n;
void routine(void) { n = 7; /* seven */ }
```

Text.

```console
$ cat one.c
int n;
...
$ echo a; echo b >&2; echo; \\
  exit 3
a
b
[status 3]

$ ls -d rou*
routines
$ seq 100
1
...
99
100
```

```c
void routine(void) {
    n = 7;
}
```

```c
struct calls {
    ...
};
...
q = q + 2;
```

```numbers routines/snapshot.txt
...
```

```c routines/wrap.c
...
void routine(void) {
...
}
```

```console not-run
$ .ci/run
```

    .ci/run
"""

WRONG = (  # a page, and what is complained about
    ("```console\n$ echo 1\n2\n```", "-2\n+1"),
    ("```console\n$ seq 2\n1\n```", "+2"),
    ("```console\n$ seq 2\n1\n2\n3\n```", "-3"),
    ("```console\n$ seq 9\n...\n8\n```", "$ seq 9\n"),
    ("```console\n$ false\n```", "status 1, and the page says 0"),
    ("```console\n$ exit 2\n[status 1]\n```", "status 2, and the page says 1"),
    ("```console\n$ true\n[status 1]\n```", "status 0, and the page says 1"),
    ("```console\n$ echo a\n[status 0]\na\n```", "-[status 0]"),
    ("```console\n1\n```", "begins with a command"),
    ("```console\n```", "begins with a command"),
    ("```console\n1\n$ echo 1\n1\n```", "begins with a command"),
    ("```console not-run\n$ ./mavis run one.c\n```", "has to be run: ./mavis"),
    ("```console later\n$ .ci/run\n```", "not later"),
    ("    ./mavis run one.c", "indented block: ./mavis"),
    ("Text\n\n    done 1\n", "indented block: done 1"),
    ("```\n1\n```", "a block of this kind"),
    ("```text\n1\n```", "a block of this kind"),
    ("```c one.c\nint n;", "without an end"),
    ("```c\nn = 12345;\n```", "no file of C"),
    ("```c\n...\n```", "no file of C"),
    ("```c routines/wrap.c\n...\nvoid other(void) {\n...\n```", "other lines"),
    ("```c routines/nothing.c\n...\n```", "no file routines/nothing.c"),
    ("```text ../one.txt\n1\n```", "not ../one.txt"),
    ("```text mavis\n1\n```", "not mavis"),
    ("```text .\n1\n```", "not ."),
    ("```text a.txt\n1 2 3\n```\n\n```numbers a.txt\n1 2  the first\n4\n```", "-4\n+3"),
    ("```text a.txt\n1 2\n```\n\n```numbers a.txt\n1 2 the first\n```", "two spaces"),
    ("```numbers a.txt\n1\n```", "no file a.txt"),
)


class Runner(unittest.TestCase):
    """The trial of pages itself."""

    def complaints(self, text):
        with tempfile.TemporaryDirectory() as folder:
            return Trial(Page("page", text), folder, NOT_RUN, {".ci/run"}).complaints()

    def test_right(self):
        listing = (ROOT / "routines/snapshot.txt").read_text(encoding="utf-8").splitlines()
        text = RIGHT.replace("snapshot.txt\n...", "snapshot.txt\n" + "\n".join(f"{line}    remark 1" for line in listing))
        self.assertEqual([], self.complaints(text))

    def test_wrong(self):
        for text, complaint in WRONG:
            with self.subTest(text):
                (only,) = self.complaints(text)
                self.assertIn(complaint, only)


if __name__ == "__main__":
    unittest.main()
