"""A last statement that goes astray: the machine must abort at it, and leave memory as it was before.

C does not say what such a statement does, so that the native program goes without it.
"""

import model
from expressions import FAR, Expressions
from model import INT, VOID, Address, Bounds, Object, Pointer, Record, Undefined, Value
from terms import POSTFIX, UNARY


class Endless(Object):
    """Words without end, in which every step and every field is allowed: texts are made with a pointer into these."""

    def __init__(self):
        super().__init__([])
        self.values = range(1 << 40)


ENDLESS = Endless()
MIDDLE = 1 << 39


class Astray(Expressions):
    def astray(self):
        """A statement whose place, or whose value, lies outside the bounds of the pointer followed."""
        self.blocks_before = -1  # nothing is allocated: the native program would not have that block
        if self.records and self.chance(0.2):
            return self.astray_copy(self.random.choice(self.records))
        place = self.sooner_or_later(self.outside, self.pick(0, 1, 2))
        way = self.random.random()
        if way < 0.2 and place.of.type != Pointer(VOID):
            return self.at(place, POSTFIX) + self.pick("++", "--", " += 1", " -= 2") + ";"
        if way < 0.6:
            return f"{place.text} = {self.never_worked_out(place.of.type)};"
        left = self.place_of(place.of.type, 1)
        return f"{left.text} = {place.text};"

    def never_worked_out(self, type):
        """A value at the right of a place that goes astray. The place comes first, so that even a malloc here is not done."""
        self.blocks_before = blocks = len(self.memory.blocks)
        right = self.attempt(self.value_for, type, 1)
        del self.memory.blocks[blocks:]
        return "0" if right is None else right.text

    def outside(self, depth):
        pointer = self.loose_pointer() if self.chance(0.2) else self.pointer(depth)
        target = pointer.of.type.target
        if target == VOID:
            raise Undefined
        free = self.free(pointer)
        by = self.step_out(pointer.of)
        number = lambda: self.number(by, 1)
        if not isinstance(target, Record):
            self.refuse_inside(pointer.of, by, 1)
            return self.element(pointer._replace(of=free), number, by)
        field = self.random.choice(target.fields)
        self.refuse_inside(pointer.of, by * target.size + field.offset, field.words)
        place = self.member(pointer._replace(of=free), number, by, field)
        return place if field.count is None else self.star(self.decay(place))

    def free(self, pointer):
        """A pointer of the same type that can go anywhere."""
        return Value(pointer.of.type, Address(ENDLESS, MIDDLE), Bounds(ENDLESS, 0, len(ENDLESS.values)))

    def astray_copy(self, record):
        """An assignment of a whole record, of which one side or both lie outside the bounds."""
        makers = self.pick([self.outside_whole, self.whole], [self.whole, self.outside_whole], [self.outside_whole, self.outside_whole])
        left, right = (self.sooner_or_later(make, record, self.pick(0, 1)) for make in makers)
        self.routine.copied = self.routine.copied or 0
        self.routine.astray_side = makers.index(self.outside_whole)
        return f"{self.at(left, UNARY)} = {self.at(right, UNARY)};"

    def outside_whole(self, record, depth):
        pointer = self.to_record(self.loose_pointer() if self.chance(0.2) else self.pointer(depth), record)
        by = self.pick(0, 0, self.random.randint(-3, 3))
        self.refuse_inside(pointer.of, by * record.size, record.size)
        return self.element(pointer._replace(of=self.free(pointer)), lambda: self.number(by, 1), by)

    def loose_pointer(self):
        """A variable without bounds: a null pointer, or an int made into a pointer. In edition 1 an int stored over a pointer leaves
        the bounds, and could be followed."""
        loose = [variable for variable in self.memory.variables if variable.type != INT and variable.bounds[0] is None]
        if not loose:
            raise Undefined
        return self.read(self.name(self.random.choice(loose)))

    def step_out(self, pointer):
        """How far to go; most often just past an end of the bounds, where the check has to be exact."""
        if pointer.bounds is None or isinstance(pointer.type.target, Record):
            return self.random.randint(-3, 3)
        low = pointer.bounds.low - pointer.word.offset
        high = pointer.bounds.high - pointer.word.offset
        return self.pick(low - 1, high, high, high + self.random.randrange(FAR), low - self.random.randrange(1, FAR))

    def refuse_inside(self, pointer, offset, words):
        """Raises Undefined where the machine would go on."""
        try:
            model.wanted(pointer, offset, words)
        except Undefined:
            return
        raise Undefined
