"""The suite run natively, by compilers and tools that look for faults."""

import shutil
import subprocess
from concurrent.futures import ThreadPoolExecutor
from dataclasses import dataclass
from pathlib import Path

from .files import path_of
from .pairs import APART, GREATEST, IN_A_ROW, ROUND, TO_QUEUE, TO_TOP

SOURCES = Path(__file__).resolve().parents[1] / "native"
REGISTERS = {None: 0, APART: 1, IN_A_ROW: 2}
FAR = {TO_QUEUE: "queue", TO_TOP: "top", ROUND: 1 << 60, GREATEST: (1 << 63) - 1}  # in words of 64 bits
NO_REHEARSAL, LAYOUT_CHANGED = 97, 98  # statuses of caller.c

PLAIN = ["-std=gnu11", "-w", "-g", "-fno-strict-aliasing"]
SANITIZED = [*PLAIN, "-O1", "-fno-omit-frame-pointer", "-fsanitize=address,undefined", "-fno-sanitize-recover=all"]
ENVIRONMENT = {"ASAN_OPTIONS": "detect_leaks=0", "PATH": "/usr/bin:/bin"}  # a routine frees nothing
LONGEST = 120  # seconds


@dataclass(frozen=True)
class Tool:
    """A compiler with its options, and what its programs are run under. `package` is Debian's."""

    name: str
    compiler: tuple
    under: tuple = ()
    package: str = None

    @property
    def command(self):
        """The program that must be there."""
        return (self.under or self.compiler)[0]

    def compile(self, words, folder):
        made = subprocess.run([*self.compiler, *words], cwd=folder, capture_output=True, text=True)
        if made.returncode:
            raise Unusable(f"{self.compiler[0]}: {made.stderr.splitlines()[0] if made.stderr else 'failed'}")

    def version(self):
        """The tool's own word for its version, in one line."""
        told = subprocess.run([self.command, "-v" if self.command == "tcc" else "--version"], capture_output=True, text=True)
        return (told.stdout or told.stderr).splitlines()[0].strip()


TOOLS = (
    Tool("gcc alone", ("gcc", *PLAIN, "-O2"), package="gcc"),
    Tool("gcc ASan + UBSan", ("gcc", *SANITIZED), package="gcc"),
    Tool("clang ASan + UBSan", ("clang", *SANITIZED), package="clang"),
    Tool("valgrind", ("gcc", *PLAIN, "-O1"), ("valgrind", "-q", "--error-exitcode=96", "--leak-check=no"), "valgrind"),
    Tool("tcc -b", ("tcc", "-b", *PLAIN[1:3]), package="tcc"),
)


class Unusable(Exception):
    """A tool that is there but can't do its work."""


class Wrong(Exception):
    """A routine that the suite itself could not run as it means to."""


def missing(tool):
    """Why a tool can't be used, or None."""
    for command in (tool.compiler[0], tool.command):
        if not shutil.which(command, path=ENVIRONMENT["PATH"]):
            return f"there is no {command} (Debian's {tool.package})"
    return None


class Native:
    """All programs of one tool, in a folder."""

    def __init__(self, tool, folder):
        self.tool, self.folder = tool, Path(folder)
        for number in REGISTERS.values():
            tool.compile([f"-DREGISTERS={number}", "-c", str(SOURCES / "caller.c"), "-o", f"caller{number}.o"], self.folder)

    def stops(self, routine):
        """Runs a routine: the status that it ended with, 0 if nothing stopped it."""
        caller, program = f"caller{REGISTERS[routine.setting.registers]}.o", self.folder / routine.name
        included = f'-DROUTINE="{path_of(routine)}"'
        self.tool.compile([included, str(SOURCES / "routine.c"), caller, "-o", str(program)], self.folder)
        command = [*self.tool.under, str(program), str(FAR.get(routine.far, routine.far))]
        ended = subprocess.run(command, cwd=self.folder, env=ENVIRONMENT, capture_output=True, timeout=LONGEST)
        program.unlink()
        return ended.returncode

    def judge(self, pair):
        """Whether the fault is caught, and whether there is a false alarm on the twin."""
        fault, twin = (self.stops(routine) for routine in pair.routines())
        if fault == LAYOUT_CHANGED or (fault == NO_REHEARSAL and not twin):
            raise Wrong(f"{pair.name} with {self.tool.name}: its objects could not be found (status {fault})")
        return bool(fault), bool(twin)


def results(tool, pairs, folder, jobs):
    """For each pair what the tool did."""
    native = Native(tool, folder)
    with ThreadPoolExecutor(jobs) as pool:
        return list(pool.map(native.judge, pairs))
