"""Numbers in C's forms, and expressions of numbers that the translation works out itself."""

import re

from ..errors import Faulty
from ..table import WORD

NUMBER = re.compile(r"(0[xX][0-9a-fA-F]+|0[bB][01]+|0[0-7]*|[1-9][0-9]*)[uUlL]*\Z")
BASES = {"0x": 16, "0b": 2}
OPERATORS = {
    "+": lambda a, b: a + b,
    "-": lambda a, b: a - b,
    "*": lambda a, b: a * b,
    "/": lambda a, b: a // b if b else None,
    "%": lambda a, b: a % b if b else None,
    "<<": lambda a, b: a << b if b < 32 else None,
    ">>": lambda a, b: a >> b,
    "&": lambda a, b: a & b,
    "|": lambda a, b: a | b,
    "^": lambda a, b: a ^ b,
}


def number_of(constant, span):
    """The number that a constant stands for. One that doesn't fit a word, or is no whole number, is refused."""
    if constant.type == "string":
        raise Faulty(span, "a string is not in the fragment")
    if constant.type == "char":
        hint = f"write {ord(constant.value[1])}" if len(constant.value) == 3 else "write its number"
        raise Faulty(span, "a character is not in the fragment", hint)
    form = NUMBER.match(constant.value)
    if not form:
        raise Faulty(span, "a floating-point number is not in the fragment: every number is a word")
    digits = form[1].lower()
    base = BASES.get(digits[:2], 8 if digits[0] == "0" else 10)
    number = int(digits[2:], base) if base in (16, 2) else int(digits, base)
    if number >= WORD:
        raise Faulty(span, f"{constant.value} does not fit a word, which is below {WORD}")
    return number


def written(number):
    """A word as one writes it in C: a number near the top as a negative one."""
    number %= WORD
    return str(number if number < WORD // 2 else number - WORD)
