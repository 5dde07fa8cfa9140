"""Random expressions that are well defined when they are made: the memory that they will meet is known.

Each function gives a term or raises Undefined; attempt takes back what a function that raised had allocated.
"""

from typing import Any, NamedTuple

import model
from model import INT, VOID, WRAP, Pointer, Record, Undefined, Value
from terms import ADDITIVE, POSTFIX, UNARY, Term, Writer

EDGES = [WRAP - 1, WRAP // 2, WRAP // 2 - 1, WRAP - 65536, 65535, 65536, 4096, 1 << 30, 255]
FAR = 8  # steps along records and elements are at most this long


class Array(NamedTuple):
    type: Any
    count: int


class Bare(NamedTuple):
    """An expression within sizeof, which is never worked out: it has a type and need not be defined."""

    text: str
    rank: int
    type: Any
    place: bool


def is_live(value):
    """Whether a pointer can be followed, at least after some steps."""
    return model.is_address(value) and value.bounds is not None and value.bounds.object is value.word.object


def is_live_word(object, offset):
    return is_live(Value(None, object.values[offset], object.bounds[offset]))


class Expressions(Writer):
    def __init__(self, random, rules, memory, records, room):
        super().__init__(random, rules)
        self.memory, self.records = memory, records
        self.room = room  # words that may still be allocated
        self.blocks_before = 0  # blocks at the start of the statement

    def attempt(self, make, *arguments):
        blocks = len(self.memory.blocks)
        try:
            return make(*arguments)
        except Undefined:
            del self.memory.blocks[blocks:]
            return None

    def sooner_or_later(self, make, *arguments):
        for _ in range(4):
            term = self.attempt(make, *arguments)
            if term is not None:
                return term
        raise Undefined

    def has_allocated(self):
        return len(self.memory.blocks) > self.blocks_before

    # Types

    def any_target(self):
        way = self.random.random()
        if way < 0.45 and self.records:
            return self.random.choice(self.records)
        if way < 0.8:
            return INT
        if way < 0.86:
            return VOID
        return Pointer(self.any_target())

    def any_pointer_type(self):
        target = self.any_target()
        depth, inner = 0, target
        while isinstance(inner, Pointer):
            depth, inner = depth + 1, inner.target
        return Pointer(target if depth < 3 else INT)

    # Ints

    def any_number(self):
        way = self.random.random()
        if way < 0.5:
            return self.random.randrange(10)
        if way < 0.62:
            return self.random.randrange(WRAP - 9, WRAP)
        if way < 0.74:
            return self.random.choice(EDGES)
        return self.random.randrange(1000 if way < 0.87 else WRAP)

    def int_value(self, depth):
        if self.rules.ints_have_bounds and depth > 0 and self.chance(0.1):
            return self.leading_int(depth)
        way = self.random.random()
        if depth <= 0 or way < 0.2:
            return self.constant(self.any_number())
        if way < 0.58:
            return self.read(self.int_place(depth - 1))
        if way < 0.68:
            return self.size()
        if way < 0.84:
            return self.plus(self.int_value(depth - 1), self.int_value(depth - 1))
        if way < 0.93:
            return self.minus(self.int_value(depth - 1), self.constant_sum(self.any_number()))
        if way < 0.96:
            return self.cast(self.int_value(depth - 1), INT)
        return self.cast(self.pointer(depth - 1), INT)

    def number(self, wanted, depth=1):
        """An int of this very value: a constant, or another int set right by one."""
        if depth <= 0 or self.chance(0.6):
            return self.constant(wanted)
        base = self.attempt(self.known_int, depth)
        if base is None:
            return self.constant(wanted)
        more = (wanted - base.of.word) % WRAP
        if more == 0:
            return base
        if self.chance(0.4):
            return self.minus(base, self.constant_sum(-more))
        constant = self.constant(more)
        return self.plus(base, constant) if self.chance(0.7) else self.plus(constant, base)

    def constant_sum(self, number):
        """A size is a constant too."""
        if self.chance(0.93):
            return super().constant_sum(number)
        size = self.size()
        rest = self.constant(number - size.of.word)
        return self.plus(size, rest) if self.chance(0.5) else self.minus(self.constant(number + size.of.word), size)

    def known_int(self, depth):
        term = self.int_value(depth)
        if not isinstance(term.of.word, int):
            raise Undefined
        return term

    def leading_int(self, depth):
        """An int that can be followed when it is a pointer again: one in memory, or else a pointer as an int."""
        held = self.attempt(self.sooner_or_later, self.held_int, depth) if self.chance(0.7) else None
        return self.cast(self.pointer(depth - 1), INT) if held is None else held

    def held_int(self, depth):
        named = [object for object in self.memory.variables if object.type == INT and is_live_word(object, 0)]
        term = self.read(self.name(self.random.choice(named)) if named and self.chance(0.6) else self.place_of(INT, depth))
        if not is_live(term.of):
            raise Undefined
        return term

    # Places

    def variable(self):
        """A variable, sooner one that points to something."""
        variables = self.memory.variables
        object = self.random.choice(variables)
        if not isinstance(object.values[0], model.Address):
            object = self.random.choice(variables)
        return self.name(object)

    def place(self, depth):
        """An int or a pointer in memory."""
        if depth <= 0 or self.chance(0.25):
            return self.variable()
        place = self.attempt(self.place_through, depth)
        return self.variable() if place is None else place

    def place_through(self, depth):
        return self.through(self.pointer(depth - 1), depth - 1)

    def int_place(self, depth):
        return self.sooner_or_later(self.place_of, INT, depth)

    def place_of(self, type, depth):
        """A place of this type; where the pointer to it has another type, the type is changed by a cast."""
        named = [object for object in self.memory.variables if object.type == type]
        if named and (depth <= 0 or self.chance(0.3)):
            return self.name(self.random.choice(named))
        place = self.place(max(depth, 1))
        if place.of.type != type:
            if self.chance(0.8):
                raise Undefined
            place = self.star(self.cast(self.address(place), Pointer(type)))
        return place

    def through(self, pointer, depth):
        """A place that is reached through the pointer."""
        target = pointer.of.type.target
        if target == VOID:
            return self.through(self.cast(pointer, Pointer(self.random.choice([INT, INT] + self.records))), depth)
        if not isinstance(target, Record):
            return self.some_element(pointer, depth)
        place = self.some_member(pointer, depth)
        return place if place.of.count is None else self.some_element(self.decay(place), depth)

    def some_element(self, pointer, depth):
        if not is_live(pointer.of):
            raise Undefined
        low = pointer.of.bounds.low - pointer.of.word.offset
        high = pointer.of.bounds.high - pointer.of.word.offset
        near = self.random.randint(max(low, -FAR), min(high - 1, FAR)) if low <= FAR and -FAR < high else low
        by = 0 if low <= 0 < high and self.chance(0.3) else self.pick(near, near, self.random.randrange(low, high))
        return self.element(pointer, lambda: self.number(by, depth), by)

    def some_member(self, pointer, depth):
        choices = self.members_within(pointer.of)
        here = [choice for choice in choices if choice[0] == 0]
        if not choices:
            raise Undefined
        by, field = self.random.choice(here if here and self.chance(0.4) else choices)
        return self.member(pointer, lambda: self.number(by, depth), by, field)

    def members_within(self, pointer):
        """Steps along records, with the fields that lie in the bounds after them."""
        if not is_live(pointer):
            return []
        record, (object, offset), bounds = pointer.type.target, pointer.word, pointer.bounds
        steps = [step for step in range(-FAR, FAR + 1) if 0 <= offset + step * record.size <= len(object.values)]
        return [
            (step, field)
            for step in steps
            for field in record.fields
            if bounds.low <= offset + step * record.size + field.offset
            and offset + step * record.size + field.offset + field.words <= bounds.high
        ]

    # Whole records

    def whole(self, record, depth):
        """A record as a whole, some steps from a pointer; where the pointer has another type, the type is changed by a cast."""
        pointer = self.pointer_of(Pointer(record), depth, False) if self.chance(0.4) else self.to_record(self.pointer(depth), record)
        steps = self.wholes_within(pointer.of) if is_live(pointer.of) else []
        if not steps:
            raise Undefined
        by = 0 if 0 in steps and self.chance(0.4) else self.random.choice(steps)
        return self.element(pointer, lambda: self.number(by, 1), by)

    def to_record(self, pointer, record):
        return pointer if pointer.of.type == Pointer(record) else self.cast(pointer, Pointer(record))

    def wholes_within(self, pointer):
        """Steps along records after which a whole one lies in the bounds."""
        size, offset, bounds = pointer.type.target.size, pointer.word.offset, pointer.bounds
        starts = [(step, offset + step * size) for step in range(-FAR, FAR + 1)]
        return [step for step, start in starts if bounds.low <= start and start + size <= bounds.high]

    # Pointers

    def pointer(self, depth):
        """A pointer that can be followed."""
        term = self.attempt(self.sooner_or_later, self.live_pointer, depth)
        return self.address(self.name(self.random.choice(self.memory.variables))) if term is None else term

    def live_pointer(self, depth):
        term = self.some_pointer(depth)
        if not is_live(term.of):
            raise Undefined
        return term

    def some_pointer(self, depth):
        if self.rules.ints_have_bounds and depth > 0 and self.chance(0.08):
            return self.cast(self.leading_int(depth), self.any_pointer_type())
        way = self.random.random()
        if depth <= 0 or way < 0.55:
            deep = self.attempt(self.deep_place, depth) if depth > 0 and self.chance(0.7) else None
            place = self.place(depth) if deep is None else deep
            if place.of.type == INT:
                raise Undefined
            return self.read(place)
        if way < 0.65:
            return self.address(self.place(depth - 1))
        if way < 0.75:
            return self.array(depth - 1)
        if way < 0.86:
            return self.stepped(self.pointer(depth - 1), depth)
        if way < 0.97:
            return self.cast(self.pointer(depth - 1), self.any_pointer_type())
        return self.obtained(self.any_pointer_type(), False)

    def deep_place(self, depth):
        """A pointer that is reached through another one, and that can itself be followed: rare among places picked blindly."""
        pointer = self.pointer(depth - 1)
        if isinstance(pointer.of.type.target, Record):
            deep = [(by, field) for by, field in self.members_within(pointer.of) if self.live_words(pointer.of, by, field)]
            if not deep:
                raise Undefined
            by, field = self.random.choice(deep)
            place = self.member(pointer, lambda: self.number(by, 1), by, field)
            if field.count is None:
                return place
            pointer = self.decay(place)
        if not isinstance(pointer.of.type.target, Pointer):
            raise Undefined
        (object, offset), bounds = pointer.of.word, pointer.of.bounds
        live = [word - offset for word in range(bounds.low, bounds.high) if is_live_word(object, word)]
        if not live:
            raise Undefined
        by = self.random.choice(live)
        return self.element(pointer, lambda: self.number(by, 1), by)

    def live_words(self, pointer, by, field):
        """Whether a field some records on holds a pointer that can be followed."""
        first = pointer.word.offset + by * pointer.type.target.size + field.offset
        return field.type != INT and any(is_live_word(pointer.word.object, first + word) for word in range(field.words))

    def array(self, depth):
        """The name of an array within a record, or the address of a field that is none."""
        pointer = self.pointer(depth)
        if not isinstance(pointer.of.type.target, Record):
            raise Undefined
        place = self.some_member(pointer, depth)
        return self.address(place) if place.of.count is None else self.decay(place)

    def steps_within(self, value):
        """How far a pointer may be moved back and on without leaving its object."""
        size = model.size_of(value.type.target)
        object, offset = value.word
        return max(-(offset // size), -FAR), min((len(object.values) - offset) // size, FAR)

    def stepped(self, pointer, depth):
        if not is_live(pointer.of):
            raise Undefined
        by = self.random.randint(*self.steps_within(pointer.of))
        if not isinstance(pointer.of.type.target, Record) and self.chance(0.25):
            return self.address(self.some_element(pointer, depth))
        return self.moved(pointer, lambda: self.number(by, depth), by)

    def pointer_of(self, type, depth, alone):
        """A pointer of this type. Where it stands alone at the right of =, C converts it from and to void by itself."""
        way = self.random.random()
        if way < 0.2:
            return self.obtained(type, alone)
        if way < 0.24:
            return self.null(type, alone)
        if way < 0.26:
            return self.cast(self.int_value(depth), type)
        if way < 0.36:
            return self.read(self.place_of(type, depth))
        if way < 0.46 and type.target != VOID and not isinstance(type.target, Record):
            return self.address(self.place_of(type.target, depth))
        term = self.pointer(depth)
        if self.chance(0.3):
            term = self.stepped(term, depth)
        return self.fitted(term, type, alone)

    def null(self, type, alone):
        zero = Term(self.pick("0", "0", "0x0", "00", "0u", "NULL"), POSTFIX, 2, Value(INT, 0))
        return self.converted(zero, type) if alone and self.chance(0.8) else self.cast(zero, type)

    def fitted(self, term, type, alone):
        void = Pointer(VOID)
        if term.of.type == type and self.chance(0.9):
            return term
        if self.chance(0.08):
            term = self.cast(term, void)
        if alone and (term.of.type == void or type == void) and self.chance(0.7):
            return self.converted(term, type)
        return self.cast(term, type)

    # Allocation

    def obtained(self, type, alone):
        """Memory from malloc; once in a statement, since C leaves the order of two open."""
        if self.has_allocated():
            raise Undefined
        size = self.room_for(type)
        if size.of.word > self.room - self.memory.words():
            raise Undefined
        term = Term(f"malloc({size.text})", POSTFIX, size.nodes + 1, self.memory.allocate(size.of.word))
        return self.fitted(term, type, alone)

    def room_for(self, type):
        """The size of a block: of some records, or of some words."""
        record = type.target
        if self.records and (type.target == VOID or self.chance(0.1)):
            record = self.random.choice(self.records)
        if not isinstance(record, Record) or self.chance(0.1):
            return self.number(0 if self.chance(0.02) else self.random.randint(1, 9))
        count = self.pick(1, 1, 2, 3)
        if record.size > 40 and self.chance(0.7):
            return self.number(self.random.randint(1, 40))
        if self.chance(0.2):
            return self.number(count * record.size + self.random.randrange(2))
        size = self.size_of_record(record)
        for _ in range(1, count):
            size = self.plus(size, self.size_of_record(record))
        return size if self.chance(0.8) else self.plus(size, self.number(self.random.randint(1, 3)))

    def size_of_record(self, record):
        named = [object.name for object in self.memory.variables if object.type == Pointer(record)]
        inner = "*" + self.random.choice(named) if named and self.chance(0.3) else self.type(record)
        return self.size_term(inner, record.size)

    # sizeof

    def size_term(self, inner, words):
        return Term(f"sizeof({inner})", UNARY, 1, Value(INT, words))

    def size(self):
        if self.chance(0.35):
            type = self.pick(INT, self.any_pointer_type(), *self.records)
            if not isinstance(type, Record) and self.chance(0.15):
                count = self.random.randint(1, 9)
                return self.size_term(f"{self.type(type)}[{count}]", count)
            return self.size_term(self.type(type), model.size_of(type))
        bare = self.bare_name()
        for _ in range(self.pick(0, 1, 1, 2, 2, 3)):
            bare = self.bare_step(bare)
        if self.chance(0.03):
            bare = self.pick(Bare("malloc(2)", POSTFIX, Pointer(VOID), False), Bare("sizeof(int)", UNARY, INT, False))
        words = bare.type.count if isinstance(bare.type, Array) else model.size_of(bare.type)
        return self.size_term(self.at(bare, ADDITIVE), words)

    def bare_name(self):
        object = self.random.choice(self.memory.variables)
        return Bare(object.name, POSTFIX, object.type, True)

    def bare_step(self, bare):
        """One operator more around an expression within sizeof."""
        text, type = self.at(bare, POSTFIX), bare.type
        if isinstance(type, Record):
            field = self.random.choice(type.fields)
            return Bare(f"{text}.{field.name}", POSTFIX, self.bare_type(field), True)
        if type == INT:
            return self.pick(Bare(f"{text} + 1", ADDITIVE, INT, False), self.bare_address(bare))
        if type == Pointer(VOID):
            return self.bare_address(bare)
        if isinstance(type, Array):
            return self.bare_element(bare, text, type.type)
        if isinstance(type.target, Record) and self.chance(0.6):
            field = self.random.choice(type.target.fields)
            return Bare(f"{text}->{field.name}", POSTFIX, self.bare_type(field), True)
        return self.bare_address(bare) if self.chance(0.1) else self.bare_element(bare, text, type.target)

    def bare_type(self, field):
        return field.type if field.count is None else Array(field.type, field.count)

    def bare_element(self, bare, text, type):
        return self.pick(
            Bare(f"{text}[{self.random.randrange(5)}]", POSTFIX, type, True),
            Bare("*" + self.at(bare, UNARY), UNARY, type, True),
            Bare(f"{text} + {self.random.randrange(5)}", ADDITIVE, Pointer(type), False),
        )

    def bare_address(self, bare):
        if not bare.place:
            return bare
        return Bare("&" + self.at(bare, UNARY), UNARY, Pointer(bare.type), False)
