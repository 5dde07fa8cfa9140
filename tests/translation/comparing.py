"""The command tests/translation/compare."""

import argparse
import collections
import importlib.util
import itertools
import multiprocessing
import shutil
import tempfile
from pathlib import Path

import judge
import native
import proved
import routines

ROOT = Path(__file__).resolve().parents[2]
BATCH = 400  # routines in one program for gcc
LEVELS = ["-O0", "-O1"]  # in turn: C as it is written, and as a compiler rearranges it
SHOWN = 5  # differences that are printed in full

Tally = collections.namedtuple("Tally", "routines statements ints addresses differences")


class Comparison:
    """One process's part of the work."""

    def __init__(self, root, seed, with_native=True):
        self.workbench = proved.Workbench(root)
        self.seed, self.with_native = seed, with_native

    def differences(self, made, level):
        """What differs, routine by routine."""
        machine = [self.by_machine(routine, result) for routine, result in zip(made, self.workbench.run(made))]
        if not self.with_native:
            return machine
        with tempfile.TemporaryDirectory() as folder:
            answers = native.run(made, Path(folder), level)
        answers += [None] * (len(made) - len(answers))
        return [found + self.by_native(routine, objects) for routine, objects, found in zip(made, answers, machine)]

    def by_machine(self, routine, result):
        if isinstance(result, proved.Refused):
            return [str(result)]
        (starts, unused), answer, other = result
        return judge.against_machine(routine, starts, unused, answer) + judge.between_editions(answer, other)

    def by_native(self, routine, objects):
        if objects is None:
            return ["the native program stopped before this routine was over"]
        return judge.against_native(routine, objects)

    def batch(self, numbers):
        """Compares these routines; gives the tally, in which the differing ones stand by their numbers."""
        made = [routines.make(self.seed, number) for number in numbers]
        level = LEVELS[numbers[0] // BATCH % len(LEVELS)]
        differing = [number for number, lines in zip(numbers, self.differences(made, level)) if lines]
        ints, addresses = (sum(column) for column in zip(*map(judge.compared, made)))
        return Tally(len(made), sum(len(routine.body) for routine in made), ints, addresses, differing)

    def described(self, number):
        """A difference in words, with the routine cut off after the first statement that shows it, and in its plain layout if
        the difference is seen in that too."""
        for most, plain, level in itertools.product(range(routines.STATEMENTS[1] + 1), [True, False], LEVELS):
            routine = routines.make(self.seed, number, most)
            if plain:
                routine.layout = None
            lines = self.differences([routine], level)[0]
            if lines:
                return description(self.seed, number, routine, lines)
        return description(self.seed, number, routine, ["it differs only together with other routines"])


def worker(root, seed):
    global comparison
    comparison = Comparison(root, seed)


def batch(numbers):
    return comparison.batch(numbers)


def described(number):
    return number, comparison.described(number)


def batches(first, count):
    numbers = range(first, first + count)
    return [numbers[at : at + BATCH] for at in range(0, count, BATCH)]


def description(seed, number, routine, lines):
    given = [f"{variable.name} = {value}" for variable, value in routine.inputs.items()]
    given += [f"{variable.name} -> {words}" for variable, words in routine.registers]
    again = f"tests/translation/compare --seed {seed} --first {number} --count 1"
    return "\n".join(
        [
            f"routine {number} of seed {seed}, in edition {routine.edition}, differs ({again}), cut off after the statement that shows it:",
            "",
            routine.for_translation(),
            "called with " + (", ".join(given) or "nothing"),
            *lines[:12],
            "",
        ]
    )


def missing(with_native=True):
    """The first thing that is not there, or None."""
    if importlib.util.find_spec("pycparser") is None:
        return "pycparser"
    if shutil.which("rt") is None:
        return "rt"
    return native.missing() if with_native else None


def build(root):
    """Proves and links the machine once, before there are several processes."""
    proved.Workbench(root)
    from workbench.machine import build as build_machine

    build_machine()


def compare(seed, first, count, jobs):
    build(ROOT)
    total = Tally(0, 0, 0, 0, [])
    with multiprocessing.Pool(jobs, worker, (ROOT, seed)) as pool:
        for tally in pool.imap_unordered(batch, batches(first, count)):
            total = Tally(*(left + right for left, right in zip(total, tally)))
        for number, text in pool.imap(described, sorted(total.differences)[:SHOWN]):
            report(text, f"seed-{seed}-routine-{number}.txt")
    print(
        f"seed {seed}: {total.routines} routines, {total.statements} statements; {total.ints} ints and {total.addresses} addresses "
        f"compared; {len(total.differences)} routines differ"
    )
    return 1 if total.differences else 0


def report(text, name):
    print(text)
    folder = ROOT / "target" / "translation"
    folder.mkdir(parents=True, exist_ok=True)
    (folder / name).write_text(text)


def main(words):
    parser = argparse.ArgumentParser(prog="tests/translation/compare", description=__doc__)
    parser.add_argument("--seed", type=int, default=1)
    parser.add_argument("--first", type=int, default=0, help="the number of the first routine")
    parser.add_argument("--count", type=int, default=20000)
    parser.add_argument("--jobs", type=int, default=2, help="processes")
    options = parser.parse_args(words)
    lacks = missing()
    if lacks:
        print(f"tests/translation/compare: missing: {lacks}")
        return 2
    return compare(options.seed, options.first, options.count, options.jobs)
