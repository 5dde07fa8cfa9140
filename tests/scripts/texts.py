"""Texts and lists of registers, good and bad."""
import re

from programs import ROOT

PAGE = (ROOT / "docs" / "TABLE.md").read_text()

# Two variables, a pointer (0) and an int (1), in memory of 6 words: the table that docs/TABLE.md has its examples of lists for.
TWO_VARIABLES = b"6 2 0 0 0 0 0 2 1 0 0 0"


def row_cells(line):
    return [cell.strip() for cell in line.strip("|").split("|")]


def rows(*heads):
    """The rows below each head of docs/TABLE.md that has these columns."""
    found = []
    lines = iter(PAGE.splitlines())
    for line in lines:
        if row_cells(line) == list(heads):
            next(lines)
            for row in iter(lambda: next(lines, ""), ""):
                found.append(dict(zip(heads, row_cells(row))))
    assert found, f"docs/TABLE.md has no table with the columns {heads}"
    return found


def code(cell):
    """What stands in code quotes in a cell, each a line."""
    return "".join(line + "\n" for line in re.findall("`([^`]*)`", cell)).encode()


def page_texts():
    """Texts of docs/TABLE.md with the output it has for them."""
    found = [(code(row["Text"]), code(row["Output"])) for row in rows("Text", "Output")]
    found += [(code(row["Text"]), code(row["Answer"])) for row in rows("No.", "Condition", "Place", "Text", "Answer")]
    for heads in ("No.", "Condition", "Place", "Table", "Answer"), ("Table", "Faults", "Answer"), ("Table", "Answer", ""):
        found += [(b"9 0 " + code(row["Table"]), code(row["Answer"])) for row in rows(*heads)]
    return found


def page_lists():
    """Lists of registers of docs/TABLE.md with the answer it has for them."""
    return [(code(row["List"]), code(row["Answer"])) for row in rows("No.", "Condition", "Place", "List", "Answer")]


def numbers(*parts):
    """A text of numbers and lists of numbers."""
    words = [str(word) for part in parts for word in (part if isinstance(part, list) else [part])]
    return " ".join(words).encode()


EMPTY_TABLE = [0] * 6
EMPTY_RUN = b"1 0 0 0 0 0 0 0"
MARK = 2**32 - 1


def ints(n):
    """A table of n int variables."""
    return [0, 0, 0, n] + [0] * (n + 2)


GOOD_TEXTS = {
    "no line end": EMPTY_RUN,
    "separators at both ends and together": b"\n\n  1 \n 0  0 0\n0 0 \n\n 0 0 \n ",
    "leading zeros": b"001 00 000000000000 0 0 0 0 00",
    "very many leading zeros": b"1 0 0 0 0 0 0 " + b"0" * 20000,
    "leading zeros before ten digits": b"2 1 0000000000004294967295 0 0 0 1 0 0 0",
    "the largest number": b"2 1 4294967295 0 0 0 1 0 0 0",
    "the largest number in a table": b"1 0 4294967295",
    "no table": b"1 0",
    "no memory": b"0 0 0 0 0 0 0 0",
    "all the memory": numbers(4096, 0, EMPTY_TABLE),
    "all the memory, leading zeros": b"0000004096 0 0 0 0 0 0 0",
    "64 inputs": numbers(65, 64, list(range(64)), ints(64)),
    "64 inputs and no table": numbers(65, 64, [0] * 64),
    "one input too many for the table": numbers(9, 2, [0] * 2, ints(1)),
    "2,472 words of table": numbers(1, 0, [0] * 2472),
    "2,472 words of table, marked": numbers(1, 0, MARK, 2, [0] * 2470),
    "all that a text can hold": numbers(4096, 64, [0] * 64, ints(64), [0] * 2402),
    "edition 2": numbers(2, 1, 9, MARK, 2, ints(1)),
    "another edition": numbers(1, 0, MARK, 1, EMPTY_TABLE),
    "the mark alone": numbers(1, 0, MARK),
    "the mark and the edition alone": numbers(1, 0, MARK, 2),
    "the mark twice": numbers(1, 0, MARK, 2, MARK, 2, EMPTY_TABLE),
    "a line for each number": b"1\n0\n" + b"0\n" * 6,
}

# The bytes other than digits and separators.
OTHER_BYTES = [bytes([byte]) for byte in range(256) if bytes([byte]) not in [b" ", b"\n", *[b"%d" % digit for digit in range(10)]]]

BAD_TEXTS = {
    "empty": b"",
    "separators alone": b" \n \n",
    "one number": b"1",
    "an input is missing": b"1 1",
    "63 inputs of 64": numbers(65, 64, [0] * 63),
    "4,097 words of memory": numbers(4097, 0, EMPTY_TABLE),
    "memory of 2^32 words": numbers(2**32, 0, EMPTY_TABLE),
    "memory of 2^32 + 1 words": numbers(2**32 + 1, 0, EMPTY_TABLE),
    "memory of 2^32 - 1 words": numbers(2**32 - 1, 0, EMPTY_TABLE),
    "65 inputs": numbers(66, 65, [0] * 65, ints(64)),
    "2^32 inputs": numbers(1, 2**32, EMPTY_TABLE),
    "2^32 - 1 inputs": numbers(1, 2**32 - 1, EMPTY_TABLE),
    "2^64 inputs": numbers(1, 2**64, EMPTY_TABLE),
    "2,473 words of table": numbers(1, 0, [0] * 2473),
    "2,473 words of table, marked": numbers(1, 0, MARK, 2, [0] * 2471),
    "more than a text can hold": numbers(4096, 64, [0] * 64, ints(64), [0] * 2403),
    "much more than a text can hold": numbers(4096, 64, [0] * 100000),
    "2^32": numbers(1, 0, [0] * 5, 2**32),
    "2^32 with leading zeros": b"1 0 0 0 0 0 0 00000000004294967296",
    "2^64": numbers(1, 0, [0] * 5, 2**64),
    "2^64 + 1": numbers(1, 0, [0] * 5, 2**64 + 1),
    "ten digits": b"1 0 0 0 0 0 0 9999999999",
    "400 digits": b"1 0 0 0 0 0 0 1" + b"0" * 399,
    "20,000 digits": b"1 0 0 0 0 0 0 1" + b"0" * 19999,
    "an input of 2^32": b"2 1 4294967296 0 0 0 1 0 0 0",
    "a minus": b"1 0 0 0 0 0 0 -1",
    "a minus before 0": b"1 0 0 0 0 0 0 -0",
    "a plus": b"+1 0 0 0 0 0 0 0",
    "a point": b"1 0 0 0 0 0 0 0.0",
    "an exponent": b"1 0e0 0 0 0 0 0 0",
    "base 16": b"0x1 0 0 0 0 0 0 0",
    "commas": b"1,0,0,0,0,0,0,0",
    "a comment": EMPTY_RUN + b" # nothing",
    "line ends of two bytes": EMPTY_RUN + b"\r\n",
    "a byte order mark": b"\xef\xbb\xbf" + EMPTY_RUN,
    "digits of another script": "1 0 0 0 0 0 0 ٠".encode(),
    "no-break space": "1\u00a00 0 0 0 0 0 0".encode(),
    "a word": EMPTY_RUN + b"\nregisters\n0",
    "the word input": b"input",
    "the word case": b"case",
}

BAD_LISTS = {
    "2^32": b"4294967296",
    "2^32 in a register": b"1 0 1 4294967296",
    "2^64": b"18446744073709551616",
    "2^64 as a length": b"1 0 18446744073709551616",
    "400 digits": b"1" + b"0" * 399,
    "a minus": b"-1",
    "a plus": b"+0",
    "an exponent": b"0e0",
    "base 16": b"0x0",
    "a word": b"none",
    "the word that parts text and list": b"0\nregisters\n0",
    "line ends of two bytes": b"0\r\n",
    "a tab": b"1\t0 0",
    "a long list with a letter at its end": numbers(1, 0, 70001, [5] * 70001) + b"x",
    "a long list with 2^32 at its end": numbers(1, 0, 70001, [5] * 70000, 2**32),
}

UNTOUCHED = b"done 3\n1 0 0 0\n2 0 0 0\n"

# Lists for TWO_VARIABLES with their answers.
LISTS = {
    "no registers": (b"0", UNTOUCHED),
    "no registers, leading zeros": (b"\n 000 \n", UNTOUCHED),
    "separators alone": (b" \n\n", b"refused 13 0\n"),
    "a register of no words": (b"1 0 0", UNTOUCHED),
    "a register": (b"1 0 2 9 4294967295", b"done 5\n1 3 3 5\n2 0 0 0\n3 9 0 0\n4 4294967295 0 0\n"),
    "a register, a number to a line": (b"1\n\n0\n01\n9\n", b"done 4\n1 3 3 4\n2 0 0 0\n3 9 0 0\n"),
    "a register that fills the memory": (b"1 0 3 7 8 9", b"done 6\n1 3 3 6\n2 0 0 0\n3 7 0 0\n4 8 0 0\n5 9 0 0\n"),
    "the largest count": (b"4294967295", b"refused 13 0\n"),
    "the largest length": (b"1 0 4294967295", b"refused 13 3\n"),
    "a count alone": (b"1", b"refused 13 1\n"),
    "a variable alone": (b"1 0", b"refused 13 2\n"),
}

LONGEST = 70000  # words of a list that the programs behind routines/run take

# Lists of as many words as they take, and of one more, for TWO_VARIABLES.
LONG_LISTS = {
    "a register that does not fit": ([1, 0, LONGEST - 3] + [5] * (LONGEST - 3), b"refused 15 2\n"),
    "words after a register": ([1, 0, 1, 9] + [5] * (LONGEST - 4), b"refused 13 4\n"),
    "a count that is too large": ([17] + [5] * (LONGEST - 1), b"refused 13 0\n"),
    "one word more": ([1, 0, LONGEST - 2] + [5] * (LONGEST - 2), b"input\n"),
}
