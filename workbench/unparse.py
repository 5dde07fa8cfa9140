"""Nodes of a table as C."""

from .table import ADDRESS, CAST, CONSTANT, COPY, DEREF, FIELD, MALLOC, READ, SIZE, SUM, VARIABLE, WORD

# How tightly a text holds together: it needs brackets where something tighter is wanted.
POSTFIX, UNARY, ADDITIVE = 3, 2, 1


class Unparser:
    """Writes the nodes of a table that passes the check, with these names."""

    def __init__(self, table, names):
        self.table, self.names = table, names

    def text(self, number):
        return self.written(number)[0]

    def tight(self, number, wanted):
        """A node's text, in brackets if it does not hold together tightly enough."""
        text, tightness = self.written(number)
        return text if tightness >= wanted else f"({text})"

    def written(self, number):
        """A node's text and how tightly it holds together."""
        kind, a, b = self.table.nodes[number]
        if kind == VARIABLE:
            return self.names.variables[a], POSTFIX
        if kind == DEREF:
            return self.followed(a)
        if kind == FIELD:
            array = "[0]" if self.field(number).is_array else ""
            return f"{self.member(number)}{array}", POSTFIX
        if kind == CONSTANT:
            return f"{a}{'u' if a >= WORD // 2 else ''}", POSTFIX
        if kind == SUM:
            return f"{self.tight(a, ADDITIVE)} {self.addend(b)}", ADDITIVE
        if kind == READ:
            return self.written(a)
        if kind == ADDRESS:
            return self.address(a)
        if kind == CAST:
            return f"({self.names.type(self.table, b)}){self.tight(a, UNARY)}", UNARY
        if kind == SIZE:
            return f"sizeof({self.names.type(self.table, a)})", UNARY
        if kind == MALLOC:
            return f"malloc({self.text(a)})", POSTFIX
        assert kind == COPY
        return f"copy({self.text(a)}, {self.text(b)})", POSTFIX  # C has no such value: only `*a = *b`, as a command

    def followed(self, pointer):
        """What a pointer points to: with an index where it is a sum."""
        kind, a, b = self.table.nodes[pointer]
        if kind == SUM and self.table.nodes[b] != (CONSTANT, 0, 0):
            return f"{self.tight(a, POSTFIX)}[{self.index(b)}]", POSTFIX
        return f"*{self.tight(pointer, UNARY)}", UNARY

    def index(self, number):
        kind, a, _ = self.table.nodes[number]
        return str(a - WORD) if kind == CONSTANT and a >= WORD // 2 else self.text(number)

    def addend(self, number):
        """The second operand of a sum with its sign: a number near the top is subtracted as the small one that it is the negative of."""
        kind, a, _ = self.table.nodes[number]
        return f"- {WORD - a}" if kind == CONSTANT and a >= WORD // 2 else f"+ {self.tight(number, UNARY)}"

    def field(self, number):
        _, a, b = self.table.nodes[number]
        return self.names.field(self.table, self.table.record_of(self.table.node_type(a)), b)

    def member(self, number):
        return f"{self.tight(self.table.nodes[number][1], POSTFIX)}->{self.field(number).name}"

    def address(self, place):
        """The address of a place; that of an array field is its name."""
        if self.table.nodes[place][0] == FIELD and self.field(place).is_array:
            return self.member(place), POSTFIX
        return f"&{self.tight(place, UNARY)}", UNARY

    def struct(self, pointer):
        """The whole struct that a pointer points to."""
        return self.followed(pointer)[0]

    def command(self, number):
        """A command; where C has it as an assignment of a whole struct, that."""
        place, value = self.table.commands[number]
        kind, a, b = self.table.nodes[value]
        if kind == COPY and self.table.nodes[place][:2] == (VARIABLE, self.table.copied()):
            return f"{self.struct(a)} = {self.struct(b)};"
        return f"{self.text(place)} = {self.text(value)};"
