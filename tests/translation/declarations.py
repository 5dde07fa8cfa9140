"""Random declarations: structs, variables at file scope, parameters, and what the routine is called with."""

import model
from expressions import Expressions
from model import INT, VOID, WRAP, Field, Object, Pointer, Record

NAMES = (
    "car door call floor stop load fault next queue hall lift people count size n p q a b x y z node first last at t0 "
    "t1 tmp list bank total Car N sizes mallocs integer voids structs _u i j k"
).split()
OTHER_POINTERS = [Pointer(INT), Pointer(VOID), Pointer(Pointer(INT))]
MOST_REGISTERS = 3


def base_of(type):
    while isinstance(type, Pointer):
        type = type.target
    return type


def declarator(type, name):
    return "*" + declarator(type.target, name) if isinstance(type, Pointer) else name


class Declarations(Expressions):
    """Needs the routine that is made, in self.routine."""

    def declare(self):
        """Everything before the first statement."""
        self.names = self.random.sample(NAMES, len(NAMES))
        self.make_records()
        pieces = [self.record_text(record) for record in self.records]
        for _ in range(self.random.randint(2, 5)):
            pieces.append(self.row_text(self.row_of_variables()))
        self.random.shuffle(pieces)
        self.routine.outside = pieces
        for _ in range(self.pick(0, 0, 1, 2, 3)):
            variable = self.new_variable(self.type_of_variable())
            self.routine.parameters.append((self.parameter_text(variable), variable))
        self.routine.no_parameters = self.pick("void", "void", "void", "")
        for variable in self.memory.variables:
            if self.chance(0.6):
                self.hand_in(variable)

    # Structs

    def make_records(self):
        """Tags and fields have names of their own in C, which may be those of variables too."""
        self.records += [Record(tag) for tag in self.random.sample(NAMES, self.pick(0, 1, 1, 2, 2, 2, 3, 3, 4, 6))]
        for record in self.records:
            for name in self.random.sample(NAMES, self.pick(1, 2, 2, 3, 3, 4, 5, 7)):
                record.add(Field(name, self.type_of_field(), self.count_of_field()))

    def type_of_field(self):
        way = self.random.random()
        if way < 0.45:
            return INT
        if way < 0.8:
            return Pointer(self.random.choice(self.records))
        if way < 0.85:
            return Pointer(Pointer(self.random.choice(self.records)))
        return self.random.choice(OTHER_POINTERS)

    def count_of_field(self):
        way = self.random.random()
        if way < 0.6:
            return None
        if way < 0.97:
            return self.random.randint(1, 5)
        return self.pick(9, 30, 100, 1000, 4095, 4096)

    def record_text(self, record):
        rows, fields = [], list(record.fields)
        while fields:
            row = [fields.pop(0)]
            while fields and base_of(fields[0].type) == base_of(row[0].type) and self.chance(0.4):
                row.append(fields.pop(0))
            rows.append(self.type(base_of(row[0].type)) + " " + ", ".join(self.field_text(field) for field in row) + ";")
        inner = " " + " ".join(rows) + " " if self.chance(0.3) else "\n    " + "\n    ".join(rows) + "\n"
        behind = " " + self.behind(record) if self.chance(0.1) else ""
        return f"struct {record.tag} {{{inner}}}{behind};"

    def field_text(self, field):
        text, count = declarator(field.type, field.name), field.count
        if count is None:
            return text
        if self.chance(0.8):
            return f"{text}[{count}]"
        length = self.pick(f"0x{count:x}", f"0{count:o}", f"{count}u", f"{count - 1} + 1", f"{count + 1} - sizeof(int)")
        return f"{text}[{length}]"

    def behind(self, record):
        """Variables that are declared together with their record."""
        types = [self.pick(Pointer(record), Pointer(record), Pointer(Pointer(record))) for _ in range(self.pick(1, 1, 2))]
        return ", ".join(declarator(type, self.new_variable(type).name) for type in types)

    # Variables

    def new_variable(self, type):
        """It has a name that no other variable has, and is in the memory from here on."""
        name = self.names.pop() if self.names else f"v{len(self.memory.variables)}"
        variable = Object([0], name, type)
        self.memory.variables.append(variable)
        return variable

    def type_of_variable(self):
        way = self.random.random()
        if way < 0.35:
            return INT
        if way < 0.7 and self.records:
            return Pointer(self.random.choice(self.records))
        if way < 0.84:
            return Pointer(INT)
        if way < 0.91:
            return Pointer(VOID)
        if way < 0.97 or not self.records:
            return Pointer(Pointer(INT))
        return Pointer(Pointer(self.random.choice(self.records)))

    def row_of_variables(self):
        """Variables of one declaration: they differ in their stars alone."""
        first = self.type_of_variable()
        variables = [self.new_variable(first)]
        while self.chance(0.3):
            variables.append(self.new_variable(self.pick(first, self.other_stars(first))))
        return variables

    def other_stars(self, type):
        """The same base with another number of stars; with none only if it is int."""
        base = base_of(type)
        for _ in range(self.pick(0, 1, 2) if base == INT else self.pick(1, 1, 2)):
            base = Pointer(base)
        return base

    def row_text(self, variables):
        """One declaration, such as int n, *p;"""
        return f'{self.type(base_of(variables[0].type))} {", ".join(declarator(item.type, item.name) for item in variables)};'

    def parameter_text(self, variable):
        """A parameter that is written as an array is a pointer in C."""
        target = getattr(variable.type, "target", VOID)
        if target == VOID or isinstance(target, Record) or self.chance(0.9):
            return self.row_text([variable])[:-1]
        return self.row_text([Object([0], variable.name, target)])[:-1] + self.pick("[]", "[3]")

    # What it is called with

    def hand_in(self, variable):
        """An input for an int, a register for a pointer."""
        if variable.type == INT:
            number = self.pick(self.random.randrange(12), WRAP - 1, self.random.randrange(WRAP))
            self.routine.inputs[variable] = variable.values[0] = number
        elif len(self.routine.registers) < MOST_REGISTERS:
            words = [
                self.pick(self.random.randrange(9), self.random.randrange(WRAP)) for _ in range(self.register_length(variable.type.target))
            ]
            self.routine.registers.append((variable, words))
            if words:
                register = Object(words)
                self.memory.registers.append(register)
                self.rules.assign(model.variable(variable), model.at_start(variable.type, register))

    def register_length(self, target):
        size = model.size_of(target)
        if size == 1 or size > 40 or self.chance(0.2):
            return self.random.randrange(12)
        return size * self.random.randint(1, 3)
