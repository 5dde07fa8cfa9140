"""How much stack the calls take at the deepest tables is what the header says, and they can't take more than it promises."""
import re
import subprocess
import unittest

from programs import ROOT

CALLS = "check", "run", "explain", "run_bare"
ENOUGH = (
    r"Stack: (\d+) KiB are enough for mavistable_check, (\d+) KiB for mavistable_run, (\d+) KiB for mavistable_explain and (\d+) KiB for "
    r"mavistable_run_bare"
)
TOOK = r"On x86-64 they took ([\d,]+), ([\d,]+), ([\d,]+) and ([\d,]+) bytes"


def numbers(pattern, text):
    return [int(number.replace(",", "")) for number in re.search(pattern, text).groups()]


class Stack(unittest.TestCase):
    def test_header(self):
        header = " ".join((ROOT / "include" / "mavistable.h").read_text().split())
        found = subprocess.run([ROOT / "perf" / "stack"], check=True, capture_output=True, text=True).stdout
        taken = [numbers(rf"(?m)^{call} (\d+) bytes", found)[0] for call in CALLS]
        most = [numbers(rf"(?m)^{call} at most (\d+)$", found)[0] for call in CALLS]
        self.assertEqual(taken, numbers(TOOK, header), found)
        for took, at_most, kib in zip(taken, most, numbers(ENOUGH, header)):
            self.assertLessEqual(took, at_most)
            self.assertLessEqual(at_most, 1024 * kib)
