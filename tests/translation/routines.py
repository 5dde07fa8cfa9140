"""A routine, and the random making of one."""

import random as randomness

import layout
import model
from astray import Astray
from declarations import Declarations, base_of, declarator
from model import INT, WRAP, Undefined, Value
from terms import POSTFIX, UNARY

STATEMENTS = 5, 40  # from, to
MOST_NODES = 490  # of the 512 that a table has room for
MOST_VARIABLES = 50  # of 64
ROOM, LARGE_ROOM = 300, 12000  # words of memory


class Routine:
    """The parts of its text, what it is called with, and the memory as the model has it at the end."""

    def __init__(self, edition):
        self.edition = edition
        self.name = "routine"
        self.records = []
        self.outside = []  # declarations at file scope, in order
        self.parameters = []  # pairs: text, variable
        self.no_parameters = "void"
        self.layout = None  # the seed of another layout for the translator's text
        self.body = []  # pairs: a statement, and the same with a zero where a variable has no initialiser
        self.commands = 0  # assignments in it
        self.astray = None  # a last statement at which the machine must abort
        self.astray_side = None  # where that statement assigns a whole record: 0 if its left side lies outside, 1 if the right one alone does
        self.copied = None  # words that the last assignment of a whole record copied; None where the text has no such assignment
        self.memory = model.Memory()
        self.inputs = {}  # variable to number
        self.registers = []  # pairs: variable, words

    def text(self, native=False):
        """All but its last brace; for the native program without the statement that goes astray."""
        parameters = ", ".join(text for text, _ in self.parameters) or self.no_parameters
        lines = ["    " + pair[native] for pair in self.body]
        if self.astray and not native:
            lines.append("    " + self.astray)
        return "\n".join([*self.outside, "", f"void {self.name}({parameters}) {{", *lines])

    def for_translation(self):
        text = self.text() + "\n}\n"
        return text if self.layout is None else layout.other(text, self.layout)


class Maker(Declarations, Astray):
    """Makes one routine, statement by statement, and keeps the model's memory in step."""

    def __init__(self, random, edition, most):
        self.routine = Routine(edition)
        room = LARGE_ROOM if random.random() < 0.02 else ROOM
        super().__init__(random, model.Rules(edition), self.routine.memory, self.routine.records, room)
        self.nodes = 0
        if self.chance(0.2):
            self.routine.layout = random.random()
        self.declare()
        for _ in range(min(random.randint(*STATEMENTS), most)):
            self.statement()
        if self.chance(0.25) and self.nodes < MOST_NODES - 60:
            self.routine.astray = self.attempt(self.astray)

    def statement(self):
        if self.chance(0.005):
            self.routine.body.append((";", ";"))
        for _ in range(5):
            self.blocks_before = len(self.memory.blocks)
            makers = [self.assignment, self.revival, self.compound, self.step, self.declaration, self.copy]
            line = self.attempt(self.random.choices(makers, [46, 22, 13, 11, 8, 12])[0])
            if line is not None:
                self.routine.body.append(line if isinstance(line, tuple) else (line, line))
                return

    def done(self, place, value, nodes):
        """The assignment itself; nothing raises Undefined after it."""
        self.count(nodes)
        self.rules.assign(place, value)

    def count(self, nodes):
        """One command more, of so many nodes."""
        if self.nodes + nodes > MOST_NODES:
            raise Undefined
        self.nodes += nodes
        self.routine.commands += 1

    def value_for(self, type, depth):
        if type == INT:
            return self.int_value(depth)
        return self.pointer_of(type, depth, True)

    # Assignments

    def assignment(self):
        left = self.place(self.pick(0, 1, 1, 2, 2, 3))
        right = self.value_for(left.of.type, self.pick(0, 1, 2, 2, 3))
        self.done(left.of, right.of, left.nodes + right.nodes)
        return f"{left.text} = {right.text};"

    def revival(self):
        """A pointer that points to nothing gets something, or else most routines would soon have nothing to follow."""
        left = self.dead_variable() if self.chance(0.6) else self.place(2)
        if left.of.type == INT:
            raise Undefined
        right = self.obtained(left.of.type, True) if self.chance(0.6) else self.pointer_of(left.of.type, 1, True)
        self.done(left.of, right.of, left.nodes + right.nodes)
        return f"{left.text} = {right.text};"

    def dead_variable(self):
        dead = [
            variable for variable in self.memory.variables if variable.type != INT and not isinstance(variable.values[0], model.Address)
        ]
        if not dead:
            raise Undefined
        return self.name(self.random.choice(dead))

    def copy(self):
        """An assignment of a whole record. Where two overlap, the native program moves the words."""
        if not self.records:
            raise Undefined
        record = self.random.choice(self.records)
        left, right = (self.sooner_or_later(self.whole, record, self.pick(0, 1, 1, 2)) for _ in range(2))
        self.count(left.nodes + right.nodes + 2)
        overlap = model.overlap(left.of.pointer, right.of.pointer)
        model.copy(left.of.pointer, right.of.pointer)
        self.routine.copied = record.size
        text = f"{self.at(left, UNARY)} = {self.at(right, UNARY)};"
        return (text, f"memmove(&({left.text}), &({right.text}), {4 * record.size});") if overlap else text

    # Changes of a place

    def changed_place(self):
        """What a ++ or += changes. It is worked out once in C and twice on the machine, so that it must not allocate."""
        place = self.place(self.pick(0, 1, 2, 2))
        if self.has_allocated():
            raise Undefined
        return place

    def step(self):
        place = self.changed_place()
        sign = self.pick("++", "--")
        by = Value(INT, 1 if sign == "++" else WRAP - 1)
        self.done(place.of, self.rules.add(self.rules.read(place.of), by), 2 * place.nodes + 3)
        if self.chance(0.7):
            return self.at(place, POSTFIX) + sign + ";"
        return sign + self.at(place, UNARY) + ";"

    def compound(self):
        place = self.changed_place()
        old = self.rules.read(place.of)
        less = self.chance(0.4)
        if place.of.type != INT:
            right = self.step_for(old, less)
        else:
            right = self.constant_sum(self.any_number()) if less else self.int_value(self.pick(0, 1, 2))
        by = Value(INT, -right.of.word % WRAP) if less else right.of
        self.done(place.of, self.rules.add(old, by), 2 * place.nodes + right.nodes + 2)
        return f'{place.text} {"-" if less else "+"}= {right.text};'

    def step_for(self, pointer, less):
        if not model.is_address(pointer):
            raise Undefined
        by = self.random.randint(*self.steps_within(pointer))
        return self.constant_sum(-by) if less else self.number(by, 2)

    # Local variables

    def declaration(self):
        """An initialiser may use the variables before it in the same row."""
        if len(self.memory.variables) > MOST_VARIABLES:
            raise Undefined
        first = self.type_of_variable()
        parts, zeroed = [], []
        while not parts or (self.chance(0.3) and len(parts) < 4):
            type = self.other_stars(first) if parts and self.chance(0.5) else first
            variable, right = self.local(type)
            text = declarator(type, variable.name)
            parts.append(text if right is None else f"{text} = {right.text}")
            zeroed.append(f"{text} = 0" if right is None else parts[-1])
        base = self.type(base_of(first))
        return f'{base} {", ".join(parts)};', f'{base} {", ".join(zeroed)};'

    def local(self, type):
        """A new variable, and what it starts with or None."""
        self.blocks_before = len(self.memory.blocks)
        right = self.attempt(self.initialiser, type) if self.chance(0.75) else None
        variable = self.new_variable(type)
        if right is not None:
            self.done(model.variable(variable), right.of, right.nodes + 1)
        return variable, right

    def initialiser(self, type):
        right = self.value_for(type, self.pick(0, 1, 2))
        if self.nodes + right.nodes + 1 > MOST_NODES:
            raise Undefined
        return right


def make(seed, number, most=STATEMENTS[1]):
    """Routine NUMBER of SEED, those of odd numbers in edition 2; most cuts it off after so many statements, for a shorter example of the same
    difference."""
    return Maker(randomness.Random(f"{seed} {number}"), 1 + number % 2, most).routine
