"""Reads the documents and tries their examples.

A page's examples are fenced blocks. They are tried in page order, in one temporary folder a page, in which `mavis`, `routines`, `examples`,
`include`, `docs` and `tests` are those of the repository, so that files and commands work as printed. What follows the three backticks says
what a block is:

    ```c car.c            A file that is written into the folder; so is one of any other language, such as ```text calls.txt
    ```c routines/row.c   A file of the repository: the block must have its lines.
    ```c                  A piece of C: white space and comments aside, it must stand in a file NAME.c of the folder or in one of routines/.
    ```numbers car.txt    Numbers, each line with a remark or without, two spaces between them: the numbers must be those of the file.
    ```console            Commands: `$ COMMAND`, and under it exactly what it prints, standard output and standard error together.
    ```console not-run    Commands that take too long. Each must be in the list NOT_RUN of test_pages.py.

In a console block, a command that ends with an exit status other than 0 has the line `[status N]` after its output, as in

    $ ./mavis run --raw routines/wrap.c
    abort 2 4
    ...
    [status 1]

A command that ends with a backslash goes on in the next line. Blank lines at the end of an output do not count, so that one may stand
before the next command. The terminal has 80 columns.

A line `...` stands for any lines, also for none: in an output, in a file of the repository, in a piece of C.

Nothing else goes unchecked: any other fenced block is complained about, and so is an indented block that test_pages.py does not list.
"""

import contextlib
import difflib
import io
import os
import re
import subprocess
import sys
import warnings
from dataclasses import dataclass, field
from pathlib import Path

ROOT = Path(__file__).resolve().parents[2]
sys.path.insert(0, str(ROOT))

from workbench.cli import main  # noqa: E402

LINKED = ("mavis", "routines", "examples", "include", "docs", "tests", "target")  # target has the programs that routines/run runs
ENVIRONMENT = {**os.environ, "COLUMNS": "80", "LC_ALL": "C.UTF-8", "PYTHONDONTWRITEBYTECODE": "1"}
LONGEST = 60  # seconds that a command may take
CUT = "..."


@dataclass(frozen=True)
class Block:
    """A block of code. `info` is what follows the backticks, and None for an indented block; `line` is the line that it begins at."""

    heading: str
    line: int
    info: str
    lines: list


@dataclass(frozen=True)
class Grid:
    """A Markdown table."""

    heading: str
    columns: str
    rows: list


class Page:
    """A document: its blocks, its tables and its other text, in `text` as one line."""

    def __init__(self, name, text=None):
        self.name, self.heading = name, ""
        self.lines = ((ROOT / name).read_text(encoding="utf-8") if text is None else text).splitlines()
        self.blocks, self.grids, self.complaints, self.prose = [], [], [], []
        at = 0
        while at < len(self.lines):
            at = self.read(at)
        self.text = " ".join(" ".join(self.prose).split())

    def read(self, at):
        """Reads what begins at a line, and gives the line after it. Lines are counted from 0."""
        line = self.lines[at]
        fence = re.match(r"( {0,3})(```+|~~~+)([^`]*)$", line)
        if fence:
            return self.fenced(at, *fence.groups())
        if line.startswith("    ") and (at == 0 or not self.lines[at - 1].strip()):
            return self.indented(at)
        if line.startswith("|"):
            return self.grid(at)
        heading = re.match(r"#+ +(.*)", line)
        if heading:
            self.heading = heading[1].strip()
        else:
            self.prose.append(line)
        return at + 1

    def fenced(self, at, indent, fence, info):
        """A fenced block, up to a line of the same fence."""
        end = at + 1
        while end < len(self.lines) and self.lines[end].strip() != fence:
            end += 1
        if end == len(self.lines):
            self.complaints.append(f"{self.name}:{at + 1}: a fenced block without an end")
        lines = [line[len(indent) :] if line.startswith(indent) else line for line in self.lines[at + 1 : end]]
        self.blocks.append(Block(self.heading, at + 1, info.strip(), lines))
        return end + 1

    def indented(self, at):
        """An indented block, up to the next text; blank lines within belong to it."""
        end = at
        while end < len(self.lines) and (self.lines[end].startswith("    ") or not self.lines[end].strip()):
            end += 1
        lines = [line[4:] for line in self.lines[at:end]]
        self.blocks.append(Block(self.heading, at + 1, None, without_blank_end(lines)))
        return end

    def grid(self, at):
        """A table: its columns, the line below them, its rows."""
        end = at
        while end < len(self.lines) and self.lines[end].startswith("|"):
            end += 1
        columns, _, *rows = [cells(line) for line in self.lines[at:end]]
        self.grids.append(Grid(self.heading, " | ".join(columns), rows))
        return end

    def rows(self, heading, columns):
        """The rows of the one table that stands under this heading and has these columns."""
        found = [grid for grid in self.grids if (grid.heading, grid.columns) == (heading, columns)]
        if len(found) != 1:
            raise AssertionError(f"{self.name} has {len(found)} tables under {heading} with the columns {columns}")
        return found[0].rows

    def shown(self, heading):
        """The lines of each block under a heading, but for commands."""
        return [block.lines for block in self.blocks if block.heading == heading and not (block.info or "").startswith("console")]

    def said(self, pattern):
        """What the groups of a pattern stand for in the page's text, which must have it exactly once."""
        found = list(re.finditer(pattern, self.text))
        if len(found) != 1:
            raise AssertionError(f"{self.name} has {len(found)} times: {pattern}")
        return found[0].groups()


def cells(line):
    """The cells of a table's line."""
    return [cell.strip().replace("\\|", "|") for cell in re.split(r"(?<!\\)\|", line.strip())[1:-1]]


def codes(cell):
    """What stands in backticks."""
    return re.findall(r"`([^`]*)`", cell)


def numbers(text):
    """A list of decimal numbers."""
    return [int(word) for word in text.split()]


def count(text):
    """The first number of a text, in which commas part thousands."""
    return int(re.search(r"\d[\d,]*", text)[0].replace(",", ""))


def beside(line):
    """The numbers that a line begins with, and the remark that stands two spaces or more to their right."""
    found = re.fullmatch(r"(\d+(?: \d+)*)(?:  +(.*))?", line)
    if found:
        return numbers(found[1]), (found[2] or "").strip()
    if line[:1].isdigit():
        raise AssertionError(f"two spaces are wanted between the numbers and the remark: {line}")
    return [], line.strip()


def without_blank_end(lines):
    while lines and not lines[-1].strip():
        lines = lines[:-1]
    return lines


def agree(expected, actual):
    """Whether lines are as expected, where a line `...` stands for any."""
    pattern = "".join(r"(?:.*\n)*?" if line.strip() == CUT else re.escape(line) + r"\n" for line in expected)
    return re.fullmatch(pattern, "".join(line + "\n" for line in actual)) is not None


def difference(expected, actual):
    return "\n".join(difflib.unified_diff(expected, actual, "the page", "now", lineterm="", n=1))


def bare(text):
    """C without white space and comments."""
    return re.sub(r"/\*.*?\*/|//[^\n]*|\s+", "", text, flags=re.DOTALL)


def mavis(*words):
    """Exit status and lines of `mavis` with these words, run in this process. Warnings of open files, which unittest turns on and `mavis`
    does not show, would be taken for its output."""
    printed = io.StringIO()
    with contextlib.redirect_stdout(printed), contextlib.redirect_stderr(printed), warnings.catch_warnings():
        warnings.simplefilter("ignore", ResourceWarning)
        status = main(list(words))
    return status, printed.getvalue().splitlines()


@dataclass
class Command:
    """A command of a console block, with what the page says that it prints and its exit status."""

    text: str
    output: list = field(default_factory=list)
    status: int = 0


def commands_of(lines):
    """The commands of a console block; None if there is none, or if something stands before the first."""
    if not lines or not lines[0].startswith("$ "):
        return None
    commands = []
    for line in lines:
        if line.startswith("$ "):
            commands.append(Command(line[2:]))
        elif commands[-1].text.endswith("\\") and not commands[-1].output:
            commands[-1].text += "\n" + line
        else:
            commands[-1].output.append(line)
    for command in commands:
        output = without_blank_end(command.output)
        status = re.fullmatch(r"\[status (\d+)\]", output[-1]) if output else None
        command.status = int(status[1]) if status else 0
        command.output = without_blank_end(output[:-1] if status else output)
    return commands


class Trial:
    """A page whose blocks are tried in a folder. `not_run` are commands that need not be run; `unchecked` are the first lines of indented
    blocks that need not be checked, or None where another test checks every block that is neither a file nor a console."""

    def __init__(self, page, folder, not_run=(), unchecked=()):
        self.page, self.folder, self.not_run, self.unchecked = page, Path(folder), not_run, unchecked
        self.commands = self.files = 0
        for name in LINKED:
            (self.folder / name).symlink_to(ROOT / name)

    def complaints(self):
        """What is wrong with the page, each with the line of its block."""
        found = list(self.page.complaints)
        for block in self.page.blocks:
            found += [f"{self.page.name}:{block.line}: {complaint}" for complaint in self.tried(block)]
        return found

    def tried(self, block):
        """What is wrong with a block."""
        words = [None] if block.info is None else block.info.split()
        if words[:1] == ["console"]:
            return self.console(block, words[1:])
        if len(words) == 2:
            return self.listed(block, words[1]) if words[0] == "numbers" else self.file(block, words[1])
        if self.unchecked is None:
            return []
        if words == ["c"]:
            return self.piece(block)
        if words == [None]:
            first = block.lines[0].strip()
            return [] if first in self.unchecked else [f"nothing checks this indented block: {first}"]
        return [f"nothing checks a block of this kind: ```{block.info}"]

    def console(self, block, words):
        """Runs the commands of a block, or sees that they need not be run."""
        commands = commands_of(block.lines)
        if commands is None:
            return ["a console block begins with a command: $ COMMAND"]
        if words == ["not-run"]:
            return [f"a command that has to be run: {each.text}" for each in commands if each.text not in self.not_run]
        if words:
            return [f"a console block is run, or not-run, and not {' '.join(words)}"]
        return [complaint for command in commands for complaint in self.run(command)]

    def run(self, command):
        """Runs a command and compares."""
        self.commands += 1
        streams = {"stdin": subprocess.DEVNULL, "stdout": subprocess.PIPE, "stderr": subprocess.STDOUT}
        texts = {"encoding": "utf-8", "errors": "replace"}
        try:
            ran = subprocess.run(command.text, shell=True, cwd=self.folder, env=ENVIRONMENT, timeout=LONGEST, **streams, **texts)
        except subprocess.TimeoutExpired:
            return [f"$ {command.text}\nhas not ended after {LONGEST} s"]
        output = without_blank_end(ran.stdout.splitlines())
        complaints = []
        if not agree(command.output, output):
            complaints.append(f"$ {command.text}\n{difference(command.output, output)}")
        if ran.returncode != command.status:
            complaints.append(f"$ {command.text}\nhas the exit status {ran.returncode}, and the page says {command.status}")
        return complaints

    def file(self, block, name):
        """Writes a file into the folder, or compares it with the repository's."""
        self.files += 1
        first, *others = Path(name).parts or (name,)
        if first in LINKED and others:
            return self.same(block, name)
        if others or first in (".", "..", *LINKED):
            return [f"a file of the folder is wanted, or one of the repository, and not {name}"]
        (self.folder / name).write_text("".join(line + "\n" for line in block.lines), encoding="utf-8")
        return []

    def same(self, block, name):
        if ".." in Path(name).parts or not (ROOT / name).is_file():
            return [f"there is no file {name}"]
        lines = (ROOT / name).read_text(encoding="utf-8").splitlines()
        return [] if agree(block.lines, lines) else [f"{name} has other lines\n{difference(block.lines, lines)}"]

    def listed(self, block, name):
        """Compares numbers with those of a file."""
        self.files += 1
        if not (self.folder / name).is_file():
            return [f"there is no file {name}"]
        try:
            shown = [str(number) for line in block.lines for number in beside(line)[0]]
        except AssertionError as error:
            return [str(error)]
        wanted = (self.folder / name).read_text(encoding="utf-8").split()
        return [] if shown == wanted else [f"{name} has other numbers\n{difference(shown, wanted)}"]

    def piece(self, block):
        """Looks for a piece of C in the files of the folder and in the routines."""
        self.files += 1
        parts = [bare(part) for part in re.split(r"(?m)^ *\.\.\. *$", "\n".join(block.lines))]
        pattern = ".*".join(re.escape(part) for part in parts)
        sources = [*self.folder.glob("*.c"), *(ROOT / "routines").glob("*.c")]
        if any(parts) and any(re.search(pattern, bare(source.read_text(encoding="utf-8"))) for source in sources):
            return []
        return ["no file of C has this piece\n" + "\n".join(block.lines)]
