"""What the tests of the workbench share."""

import os
import subprocess
import sys
from pathlib import Path

ROOT = Path(__file__).resolve().parent.parent.parent
sys.path.insert(0, str(ROOT))
sys.setrecursionlimit(10000)

from workbench.copies import told_apart  # noqa: E402
from workbench.errors import Faulty  # noqa: E402
from workbench.machine import Call, Machine  # noqa: E402
from workbench.translate import translate  # noqa: E402

MACHINE = Machine()  # built once for all tests
DECLARATIONS = """struct calls {
    int snapshot[2];
    int queue[2];
};
struct call {
    int people;
    struct call *next;
    int *floors[3];
};
struct calls *p;
struct call *at;
int *q;
int **r;
int n, m;
void *v;
"""


def routine(statements, declarations=DECLARATIONS):
    """A text with these statements in its routine, each line of them as it is."""
    return f"{declarations}void routine(void) {{\n{statements}\n}}\n"


def words(statements, edition=1):
    """The table of a routine with these statements."""
    return translate("test.c", routine(statements), edition).table.words()


def fault(text):
    """The fault of a C text that is not translated."""
    try:
        translate("test.c", text)
    except Faulty as fault:
        return fault
    raise AssertionError(f"this was translated:\n{text}")


def mavis(*arguments, folder=ROOT, **environment):
    """Runs the command: exit status, standard output, standard error."""
    command = [sys.executable, str(ROOT / "mavis"), *arguments]
    done = subprocess.run(command, cwd=folder, capture_output=True, env={**os.environ, **environment})
    return done.returncode, done.stdout.decode(), done.stderr.decode()


def explained(text, memory=64, registers=(0,), edition=1):
    """The routine of a C text, and the machine's answer."""
    made = translate("test.c", text, edition)
    call = Call(made.table.words(), memory, [0] * len(made.table.variables), list(registers))
    (answer,) = MACHINE.explain([call])
    return made, told_apart(MACHINE, call, answer)
