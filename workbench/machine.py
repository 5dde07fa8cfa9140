"""The proved machine: the program `replay`, which answers a call a line (the crate `cases` says how a line is read). Nothing here works out an
answer: it builds the program, writes the lines and reads what comes back."""

import re
import shutil
import subprocess
import sys
import time
from dataclasses import dataclass, field
from pathlib import Path

from .errors import Stop, Usage

ROOT = Path(__file__).resolve().parent.parent
PROGRAM = "replay"
LONGEST = 65536  # words of memory that a call can have
LIST = 70000  # words of a register list that the program takes
CHECK, EXPLAIN, BARE = 1, 2, 3  # calls: the check alone; a run with its explanation; a bare run


@dataclass(frozen=True)
class Cause:
    """Why a run aborted: document 02, request 4. `operand` says which of the node's pointers it was, 0 for a: the machine does not tell it."""

    node: int
    place: int
    words: int
    base: int
    end: int
    reason: int
    first: int
    operand: int = 0


@dataclass(frozen=True)
class Answer:
    """How a call ended. `words` has value, base and end of each word from 0 to the last one in use. Of a bare run it has the value alone, and
    goes on to the last word that is not 0."""

    ending: str
    command: int = None
    unused: int = None
    number: int = None
    place: int = None
    words: list = field(default_factory=list)
    cause: Cause = None


@dataclass(frozen=True)
class Call:
    """What a run takes: the table's words, the memory's length, the inputs and the register list."""

    table: list
    memory: int
    inputs: list
    registers: list = (0,)

    def line(self, kind):
        lists = [len(self.inputs), *self.inputs, len(self.registers), *self.registers, len(self.table), *self.table]
        return " ".join(map(str, [kind, 0, self.memory, self.memory, self.memory, 0, *lists]))


def crates_below(name):
    """The crates of this repository that one is proved with, in the order in which rt takes them, itself the last."""
    needs = {}
    for line in (ROOT / "crates.txt").read_text().splitlines():
        crate, colon, others = line.partition("#")[0].partition(":")
        if colon:
            needs[crate.split()[0]] = others.split()
    found = []

    def take(crate):
        if crate in needs and crate not in found:
            for other in needs[crate]:
                take(other)
            found.append(crate)

    take(name)
    return found


class Progress:
    """One line on standard error that says which crate was proved last, how many are, and the seconds. Nothing if all were proved before."""

    def __init__(self, crates):
        self.crates, self.began, self.width = crates, time.monotonic(), 0

    def proved(self, crate):
        done, seconds = self.crates.index(crate) + 1, time.monotonic() - self.began
        self.show(f"mavis: proving the machine: {crate}, {done} of {len(self.crates)} crates, {seconds:.0f} s")

    def show(self, line):
        print("\r" + line.ljust(self.width), end="", file=sys.stderr, flush=True)
        self.width = len(line)

    def end(self):
        if self.width:
            print(file=sys.stderr)


def build():
    """Proves and links the program if anything below it has changed. `rt` looks at every file, so that no old program is ever used."""
    if not shutil.which("rt"):
        raise Usage("mavis: the Rattle toolchain is needed: there is no command rt")
    progress = Progress(crates_below(PROGRAM))
    log = []
    with subprocess.Popen([ROOT / "routines/prove", PROGRAM], stdout=subprocess.DEVNULL, stderr=subprocess.PIPE, text=True) as run:
        for line in run.stderr:
            log.append(line)
            proved = re.match(r"routines/prove: (\w+) proved \(", line)
            if proved:
                progress.proved(proved[1])
    progress.end()
    if run.returncode != 0:
        raise Stop("".join(log[-40:]) + f"mavis: the machine could not be built: routines/prove {PROGRAM} failed")


class Machine:
    """The program, built before its first use."""

    def __init__(self):
        self.built = False

    def ask(self, lines):
        """One answer a line."""
        if not self.built:
            build()
            self.built = True
        text = "".join(line + "\n" for line in lines)
        run = subprocess.run([ROOT / "target/bin" / PROGRAM], input=text, stdout=subprocess.PIPE, text=True, check=True)
        return run.stdout.splitlines()

    def explain(self, calls):
        """Runs each call, and explains the runs that abort."""
        return self.run(EXPLAIN, calls)

    def bare(self, calls):
        """Runs each call without bounds."""
        return self.run(BARE, calls)

    def run(self, kind, calls):
        """The answers to calls of a kind."""
        for call in calls:
            if len(call.registers) > LIST:
                raise Usage(f"mavis: registers of {len(call.registers)} words; the memory has at most {LONGEST}")
        return [answer_of(line) for line in self.ask([call.line(kind) for call in calls])]

    def check(self, table):
        """None if the table passes, else its refusal."""
        (line,) = self.ask([" ".join(map(str, [CHECK, 0, 0, 0, 0, 0, 0, 0, len(table), *table]))])
        return None if line == "pass" else answer_of(line)


def answer_of(line):
    """An answer from the program's line."""
    ending, *rest = line.split(" ; ")
    word, *numbers = ending.split(" ")
    numbers = [int(number) for number in numbers]
    if word == "refused":
        return Answer(word, number=numbers[0], place=numbers[1])
    command, unused = numbers[0] if word != "done" else None, numbers[-1]
    memory = [] if rest[0] == "-" else [tuple(map(int, entry.split(":"))) for entry in rest[0].split(" ")]
    if len(rest) == 1:  # a bare run: of the words in use, the last ones are not told where they are 0
        return Answer(word, command, unused, words=[(0,)] + memory + [(0,)] * (unused - 1 - len(memory)))
    cause = None if rest[1] == "none" else Cause(*map(int, rest[1].split(" ")))
    return Answer(word, command, unused, words=[(0, 0, 0)] + memory, cause=cause)
