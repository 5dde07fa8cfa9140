"""Parts of C: each has its text and, beside it, what the model makes of it.

The same meaning has many texts in C, and a translator can be wrong in any of them: the writer picks one at random.
"""

from typing import Any, NamedTuple

import model
from model import INT, VOID, WRAP, Pointer, Record, Value

# How tightly a text binds: what stands before [ or -> must be a POSTFIX, what stands after * or a cast at least UNARY.
ADDITIVE, UNARY, POSTFIX = range(3)

# Names of int: all are one word, and the sum is all that is done with them, which is the same with and without a sign.
INTS = ["int"] * 6 + ["unsigned", "unsigned int", "uint32_t", "int32_t", "signed", "int unsigned"]
SUFFIXES = ["u", "U", "l", "L", "ul", "UL", "lu", "uL", "ll", "LL", "ull", "LLU"]


class Term(NamedTuple):
    text: str
    rank: int
    nodes: int  # no fewer than its translation has; a table has room for 512
    of: Any  # a Value, a Place or a Whole


class Writer:
    def __init__(self, random, rules):
        self.random, self.rules = random, rules

    def chance(self, part):
        return self.random.random() < part

    def pick(self, *choices):
        return self.random.choice(choices)

    # Names and constants

    def type(self, type):
        stars = ""
        while isinstance(type, Pointer):
            type, stars = type.target, stars + "*"
        name = "struct " + type.tag if isinstance(type, Record) else VOID if type == VOID else self.random.choice(INTS)
        return name + (" " + stars if stars and self.chance(0.9) else stars)

    def digits(self, number):
        if number and self.chance(0.25):
            text = self.pick(f"0x{number:x}", f"0X{number:X}", f"0{number:o}")
        else:
            text = str(number)
        return text + (self.random.choice(SUFFIXES) if self.chance(0.12) else "")

    def constant(self, number):
        number %= WRAP
        value = Value(INT, number)
        if self.chance(0.9 if number >= WRAP // 2 else 0.02):
            digits = self.digits((WRAP - number) % WRAP)
            return Term("-" + (f"({digits})" if self.chance(0.05) else digits), UNARY, 1, value)
        if self.chance(0.02):
            return Term(self.pick("+", "- -") + self.digits(number), UNARY, 1, value)
        return Term(self.digits(number), POSTFIX, 1, value)

    def constant_sum(self, number):
        """What may be subtracted: a constant, or now and then a sum or a difference of two."""
        if self.chance(0.85):
            return self.constant(number)
        one = self.random.randrange(-9, 10)
        if self.chance(0.5):
            return self.plus(self.constant(one), self.constant(number - one))
        return self.minus(self.constant(number + one), self.constant(one))

    def name(self, object):
        return Term(object.name, POSTFIX, 1, model.variable(object))

    # Texts put together

    def at(self, term, rank):
        """The term's text where at least this rank is needed; now and then with parentheses that C does not need."""
        return f"({term.text})" if term.rank < rank or self.chance(0.03) else term.text

    def star(self, pointer):
        return Term("*" + self.at(pointer, UNARY), UNARY, pointer.nodes + 1, model.follow(pointer.of))

    def index(self, pointer, number):
        text = f"{self.at(pointer, POSTFIX)}[{number.text}]"
        if self.chance(0.04):
            text = f"{self.at(number, POSTFIX)}[{pointer.text}]"  # C's index goes both ways
        return Term(text, POSTFIX, pointer.nodes + number.nodes + 2, model.follow(self.rules.add(pointer.of, number.of)))

    def arrow(self, pointer, field):
        text = f"{self.at(pointer, POSTFIX)}->{field.name}"
        return Term(text, POSTFIX, pointer.nodes + 1, model.field_of(pointer.of, field))

    def dot(self, whole, field):
        text = f"{self.at(whole, POSTFIX)}.{field.name}"
        return Term(text, POSTFIX, whole.nodes + 1, model.field_of(whole.of.pointer, field))

    def address(self, place):
        return Term("&" + self.at(place, UNARY), UNARY, place.nodes + 1, model.address(place.of))

    def decay(self, array):
        return Term(array.text, array.rank, array.nodes + 1, model.address(array.of))

    def read(self, place):
        return Term(place.text, place.rank, place.nodes + 1, self.rules.read(place.of))

    def plus(self, left, right):
        """Either side may be the pointer."""
        text = f"{self.at(left, ADDITIVE)} + {self.at(right, UNARY)}"
        pair = (right.of, left.of) if right.of.type != INT else (left.of, right.of)
        return Term(text, ADDITIVE, left.nodes + right.nodes + 1, self.rules.add(*pair))

    def minus(self, left, constant):
        text = f"{self.at(left, ADDITIVE)} - {self.at(constant, UNARY)}"
        less = Value(INT, -constant.of.word % WRAP)
        return Term(text, ADDITIVE, left.nodes + constant.nodes + 1, self.rules.add(left.of, less))

    def cast(self, term, type):
        return Term(f"({self.type(type)}){self.at(term, UNARY)}", UNARY, term.nodes + 1, self.rules.cast(term.of, type))

    def converted(self, term, type):
        """What C converts by itself, from or to a pointer to void, or from the constant 0: the text stays."""
        return Term(term.text, term.rank, term.nodes + 1, self.rules.cast(term.of, type))

    # Several ways to one meaning. A number is a function here: what is not written must not be worked out either.

    def moved(self, pointer, number, by):
        """A pointer some steps on; number gives a term of the value by."""
        ways = [
            lambda: self.plus(pointer, number()),
            lambda: self.plus(number(), pointer),
            lambda: self.minus(pointer, self.constant_sum(-by)),
        ]
        if isinstance(pointer.of.type.target, Record):
            ways.append(lambda: self.address(self.index(pointer, number())))
        return self.random.choice(ways)()

    def element(self, pointer, number, by):
        """The element some steps on: a place, or a whole record."""
        if by == 0 and self.chance(0.7):
            return self.star(pointer)
        way = self.random.randrange(8)
        if way < 5:
            return self.index(pointer, number())
        if way < 7:
            return self.star(self.moved(pointer, number, by))
        return self.star(self.address(self.index(pointer, number())))

    def member(self, pointer, number, by, field):
        """A field of the record some steps on."""
        if self.chance(0.35):
            return self.dot(self.element(pointer, number, by), field)
        if by or self.chance(0.1):
            pointer = self.moved(pointer, number, by)
        return self.arrow(pointer, field)
