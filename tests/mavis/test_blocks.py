"""The blocks that `mavis run` tells of, which it finds by runs in shorter memory, are those that the model of random routines has."""

import re
import sys
import unittest

from support import MACHINE, ROOT, translate

sys.path.append(str(ROOT / "tests/translation"))
import routines  # noqa: E402

from workbench.endings import Ending  # noqa: E402
from workbench.machine import Call  # noqa: E402
from workbench.memory import memory_lines  # noqa: E402
from workbench.regions import Regions  # noqa: E402

MEMORY = 20000


def call_of(made, routine):
    """The call of a random routine, with its inputs and registers."""
    number = made.names.variables.index
    inputs = [0] * len(made.names.variables)
    for variable, value in routine.inputs.items():
        inputs[number(variable.name)] = value
    registers = [len(routine.registers)]
    for variable, words in routine.registers:
        registers += [number(variable.name), len(words), *words]
    return Call(made.table.words(), MEMORY, inputs, registers)


def told(lines):
    """The words that have a line, or stand in a line of clear ones."""
    rows = (re.match(r" +(\d+)(?:\.\.(\d+))?  ", line) for line in lines)
    return [word for row in rows if row for word in range(int(row[1]), int(row[2] or row[1]) + 1)]


class Blocks(unittest.TestCase):
    def test_random_routines(self):
        for number in range(150):
            with self.subTest(number):
                routine = routines.make(99, number)
                made = translate("random.c", routine.for_translation(), routine.edition)
                call = call_of(made, routine)
                (answer,) = MACHINE.explain([call])
                regions = Regions(made, MACHINE, call, answer)
                found = [region.end - region.start for region in regions.all if region.what == "block"]
                self.assertEqual(found, [len(block.values) for block in routine.memory.blocks])
                self.assertTrue(Ending(made, MACHINE, call, answer, regions).lines()[0].startswith("random.c:"))
                self.assertEqual(told(memory_lines(regions, made)), list(range(1, answer.unused)))


if __name__ == "__main__":
    unittest.main()
