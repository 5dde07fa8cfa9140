"""Which struct of an assignment failed: of random routines that end with one, the machine is asked, and the model of the routines knows."""

import sys
import unittest

from support import MACHINE, ROOT, translate
from test_blocks import call_of

sys.path.append(str(ROOT / "tests/translation"))
import routines  # noqa: E402

from workbench.copies import told_apart  # noqa: E402

COUNT = 1000


class Copies(unittest.TestCase):
    def test_random_routines(self):
        sides = []
        for number in range(COUNT):
            routine = routines.make(6, number)
            if routine.astray_side is None:
                continue
            with self.subTest(number):
                made = translate("random.c", routine.for_translation(), routine.edition)
                call = call_of(made, routine)
                (answer,) = MACHINE.explain([call])
                self.assertEqual(told_apart(MACHINE, call, answer).cause.operand, routine.astray_side)
                sides.append(routine.astray_side)
        self.assertGreater(min(sides.count(0), sides.count(1)), 5)


if __name__ == "__main__":
    unittest.main()
