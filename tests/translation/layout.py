"""The same C with other spaces, line ends and comments, which change nothing in C."""

import random as randomness
import re

GAPS = ["  ", "\t", "\n", "\n\n", " /* n = 1; */ ", ' /* it\'s "odd" // */ ', " // } it's\n", "/**/", " /* * / */\n"]
MARKS = re.compile(r"->|\+\+|--|[-+]=|[][(){};,=]")


def other(text, seed):
    random = randomness.Random(seed)
    often = random.choice([0.02, 0.1, 0.4])

    def gap():
        return random.choice(GAPS) if random.random() < often else ""

    text = re.sub(" ", lambda match: gap() or " ", text)
    # What stands in a comment is left alone: a mark in it could end it.
    parts = re.split(r"(/\*.*?\*/|//[^\n]*\n)", text, flags=re.DOTALL)
    parts[::2] = [MARKS.sub(lambda match: gap() + match[0] + gap(), part) for part in parts[::2]]
    text = random.choice(["", "", "#include <stdlib.h>\n", "\n\n", "// first\n"]) + "".join(parts)
    return text.replace("\n", "\r\n") if random.random() < 0.05 else text
