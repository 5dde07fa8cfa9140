"""What a routine does to memory, as C and docs/TABLE.md have it: a third opinion beside the machine and a C compiler.

A word holds a number, an address (an object and an offset into it), or something unknown: a number made from an address, which
is different on each side and never compared. Bounds belong to a word, as on the machine. A step that C leaves undefined, or that
the bounds forbid, raises Undefined, so that no routine with such a step is ever made.
"""

from typing import Any, NamedTuple, Optional

WRAP = 1 << 32
INT = "int"
VOID = "void"
UNKNOWN = None


class Undefined(Exception):
    """The step is none that all sides agree on."""


class Pointer(NamedTuple):
    target: Any  # INT, VOID, a Pointer or a Record


class Field:
    def __init__(self, name, type, count):
        self.name, self.type = name, type
        self.count = count  # None where the field is no array
        self.words = count or 1
        self.offset = 0


class Record:
    def __init__(self, tag):
        self.tag, self.fields, self.size = tag, [], 0

    def add(self, field):
        field.offset = self.size
        self.size += field.words
        self.fields.append(field)


class Object:
    """A variable, a register or a block: words that lie together."""

    def __init__(self, words, name=None, type=None):
        self.name, self.type = name, type
        self.values = list(words)
        self.bounds = [None] * len(self.values)


class Address(NamedTuple):
    object: Object
    offset: int


class Bounds(NamedTuple):
    object: Object
    low: int
    high: int


class Value(NamedTuple):
    type: Any
    word: Any  # a number, an Address or UNKNOWN
    bounds: Optional[Bounds] = None


class Place(NamedTuple):
    type: Any  # of an array: that of its elements
    object: Object
    offset: int
    bounds: Bounds
    count: Optional[int] = None  # of an array: how many


class Whole(NamedTuple):
    """A record as a whole: C can take a field of it, its address and its size, and assign it to another."""

    pointer: Value


def size_of(type):
    """In words."""
    return type.size if isinstance(type, Record) else 1


def signed(number):
    return number - WRAP if number >= WRAP // 2 else number


def is_address(value):
    return isinstance(value.word, Address)


def wanted(pointer, offset, words):
    """The machine's check: the words wanted against the bounds of the pointer followed. Gives the first of them."""
    bounds = pointer.bounds
    if not is_address(pointer) or bounds is None or bounds.object is not pointer.word.object:
        raise Undefined
    first = pointer.word.offset + offset
    if first < bounds.low or bounds.high < first + words:
        raise Undefined
    return first


def follow(pointer):
    if isinstance(pointer.type.target, Record):
        return Whole(pointer)
    if pointer.type.target == VOID:
        raise Undefined
    first = wanted(pointer, 0, 1)
    return Place(pointer.type.target, pointer.word.object, first, pointer.bounds)


def field_of(pointer, field):
    first = wanted(pointer, field.offset, field.words)
    object = pointer.word.object
    return Place(field.type, object, first, Bounds(object, first, first + field.words), field.count)


def variable(object):
    return Place(object.type, object, 0, Bounds(object, 0, 1))


def address(place):
    """Of an array it is what the array's name stands for: the address of its first element."""
    if isinstance(place, Whole):
        return place.pointer
    return Value(Pointer(place.type), Address(place.object, place.offset), place.bounds)


def sum_of(left, right):
    """The word of a sum; right is an int."""
    if left.type == INT:
        numbers = isinstance(left.word, int) and isinstance(right.word, int)
        return (left.word + right.word) % WRAP if numbers else UNKNOWN
    if not is_address(left) or not isinstance(right.word, int) or left.type.target == VOID:
        raise Undefined
    object = left.word.object
    offset = left.word.offset + signed(right.word) * size_of(left.type.target)
    if not 0 <= offset <= len(object.values):
        raise Undefined
    return Address(object, offset)


class Rules:
    """The steps that each edition of the cast rule has its own of. In edition 1 an int has no bounds, and one that is stored leaves those of its
    word; in edition 2 bounds go wherever the value goes, and those of a sum are of the first operand that has any."""

    def __init__(self, edition):
        self.ints_have_bounds = edition == 2

    def moves(self, type):
        """Whether bounds go with a word of this type."""
        return self.ints_have_bounds or type != INT

    def read(self, place):
        bounds = place.object.bounds[place.offset] if self.moves(place.type) else None
        return Value(place.type, place.object.values[place.offset], bounds)

    def add(self, left, right):
        bounds = right.bounds if self.ints_have_bounds and left.bounds is None else left.bounds
        return Value(left.type, sum_of(left, right), bounds)

    def cast(self, value, type):
        return Value(type, value.word, value.bounds if self.moves(value.type) and self.moves(type) else None)

    def assign(self, place, value):
        place.object.values[place.offset] = value.word
        if self.moves(place.type):
            place.object.bounds[place.offset] = value.bounds


def overlap(to, source):
    """Whether two records have some words in common, but not all: C leaves their assignment undefined."""
    size, apart = to.type.target.size, to.word.offset - source.word.offset
    return to.word.object is source.word.object and 0 < abs(apart) < size


def copy(to, source):
    """The assignment of a whole record: its words go as they were before, with their bounds."""
    size = to.type.target.size
    first, start = wanted(to, 0, size), wanted(source, 0, size)
    for words, others in ((to.word.object.values, source.word.object.values), (to.word.object.bounds, source.word.object.bounds)):
        words[first : first + size] = others[start : start + size]


class Memory:
    def __init__(self):
        self.variables, self.registers, self.blocks = [], [], []

    def objects(self):
        return self.variables + self.registers + self.blocks

    def words(self):
        return sum(len(object.values) for object in self.objects())

    def allocate(self, words):
        if words == 0:
            return Value(Pointer(VOID), 0)
        block = Object([0] * words)
        self.blocks.append(block)
        return at_start(Pointer(VOID), block)


def at_start(type, object):
    """A pointer to the first word of a block, with the whole block as its bounds."""
    return Value(type, Address(object, 0), Bounds(object, 0, len(object.values)))
