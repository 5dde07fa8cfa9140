"""The suite run by the proved machine: with bounds, in both editions, and without."""

from workbench.machine import Call, Machine
from workbench.translate import translate

from .pairs import DOOR, GREATEST, HALL, ROUND, TO_QUEUE, TO_TOP

MEMORY = 4096
WRAP = 1 << 32
FAR = {ROUND: WRAP // 2, GREATEST: (WRAP // 2) - 1}  # a record of two words; an int of 32 bits
BARE, EDITIONS = "machine, bare", ("machine, edition 1", "machine, edition 2")


class Prepared:
    """A routine's table in an edition, and how to call it."""

    def __init__(self, routine, edition):
        self.routine, self.edition = routine, edition
        made = translate(f"{routine.name}.c", routine.text(), edition)
        self.table, self.names = made.table, made.names.variables

    def call(self, far):
        inputs = [far % WRAP if name == "far" else 0 for name in self.names]
        lists = ((name, words) for name, words in (("hall", HALL), ("door", DOOR)) if self.routine.setting.registers)
        registers = [part for name, words in lists for part in (self.names.index(name), len(words), *words)]
        return Call(self.table.words(), MEMORY, inputs, [2 if registers else 0, *registers])

    def far(self, rehearsed):
        """What is handed in for far, by the places that `calls` and `queue` have in a run with 0."""
        calls, queue = (rehearsed.words[1 + self.names.index(name)][0] for name in ("calls", "queue"))
        aims = {TO_QUEUE: queue - calls, TO_TOP: WRAP - 1 - calls}
        return aims.get(self.routine.far, FAR.get(self.routine.far, self.routine.far))

    def stops(self, answer):
        """Whether a run was stopped by the statement with the fault, the last one, or by another one, which is an error of the suite."""
        if answer.ending == "done":
            return False
        if answer.ending not in ("abort", "stuck") or answer.command != len(self.table.commands) - 1:
            raise AssertionError(f"{self.routine.name} in edition {self.edition}: {answer.ending} at {answer.command}")
        return True


def answers(pairs, edition):
    """For each routine, prepared, the answer of a run with bounds and of a bare one."""
    machine = Machine()
    prepared = [Prepared(routine, edition) for pair in pairs for routine in pair.routines()]
    rehearsed = machine.explain([one.call(0) for one in prepared])
    calls = [one.call(one.far(answer)) for one, answer in zip(prepared, rehearsed)]
    return list(zip(prepared, machine.explain(calls), machine.bare(calls)))


def results(pairs):
    """For each column of the machine and each pair, whether the fault is caught and whether there is a false alarm on the twin. An ending that is not
    the one that the pair expects is an error."""
    columns = {}
    for edition, name in enumerate(EDITIONS, 1):
        told = answers(pairs, edition)
        for one, fenced, _ in told:
            expected = one.routine.endings[edition - 1]
            if fenced.ending != expected:
                raise AssertionError(f"{one.routine.name} in edition {edition}: {fenced.ending}, and {expected} is expected")
        columns[name] = in_pairs([one.stops(fenced) for one, fenced, _ in told])
        columns[BARE] = in_pairs([one.stops(bare) for one, _, bare in told])  # the same in both editions
    return {name: columns[name] for name in (BARE, *EDITIONS)}


def in_pairs(stops):
    return list(zip(stops[::2], stops[1::2]))
