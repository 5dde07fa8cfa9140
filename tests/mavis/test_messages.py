"""The messages that docs/C.md lists are those that the C beside them gets."""

import unittest

from pages import Page, codes
from support import fault

PAGE = Page("docs/C.md")
COLUMNS = "C | Message | Help"


def plain(cell):
    """What a cell of the table stands for."""
    return cell.replace("\\|", "|").strip()


class Messages(unittest.TestCase):
    def check(self, rows, text):
        """Each row against the fault of the text that its C stands in."""
        for code, message, help in rows:
            with self.subTest(code):
                found = fault(text(codes(code)[0]))
                self.assertEqual((found.message, found.hint or ""), (plain(message), plain(help)))

    def test_listed(self):
        (declarations,) = [block.lines for block in PAGE.blocks if block.info == "c declarations.c"]
        before = "\n".join(declarations) + "\n"
        inside, outside = (grid.rows for grid in PAGE.grids if grid.columns == COLUMNS)
        self.assertEqual((len(inside), len(outside)), (40, 21))
        self.check(inside, lambda code: f"{before}void routine(void) {{\n{code}\n}}\n")
        self.check(outside, lambda code: f"{before}{code}\nvoid routine(void) {{\n}}\n")


if __name__ == "__main__":
    unittest.main()
