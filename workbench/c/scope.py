"""The names of a C text: its structs and its variables."""

from dataclasses import dataclass

from ..errors import Faulty
from ..source import Span
from .types import Record

MACRO = "NULL"  # which C replaces wherever it stands, as a field or after struct too
RESERVED = ("malloc", MACRO)  # names that the fragment has by itself


@dataclass(frozen=True)
class Variable:
    name: str
    type: object
    span: Span
    number: int


class Scope:
    """Structs in the order in which they are defined, and variables by name in the order of the text."""

    def __init__(self):
        self.tags, self.records, self.variables, self.names = {}, [], {}, {}

    def record(self, tag, span):
        """The struct of a tag, which may be defined further on."""
        self.refuse_macro(tag, span)
        if tag not in self.tags:
            self.tags[tag] = Record(tag, span)
        return self.tags[tag]

    def define(self, record, span):
        if record.number is not None:
            raise Faulty(span, f"struct {record.tag} is defined twice")
        record.number = len(self.records)
        self.records.append(record)

    def refuse_undefined(self):
        """A struct that is only mentioned has no size and no fields."""
        for record in self.tags.values():
            if record.members is None:
                raise Faulty(record.span, f"struct {record.tag} is never defined", "define it, or use void *")

    def declare(self, name, type, span):
        """A variable."""
        self.name(name, span)
        self.variables[name] = Variable(name, type, span, len(self.variables))
        return self.variables[name]

    def name(self, name, span):
        """A name for the routine or a variable, which nothing else has."""
        if name in RESERVED:
            raise Faulty(span, f"{name} has its own meaning in C", "choose another name")
        if name in self.names:
            raise Faulty(
                span, f"{name} is declared twice, first in line {self.names[name].line}", "a name stands for one thing in the whole text"
            )
        self.names[name] = span

    def refuse_macro(self, name, span):
        if name == MACRO:
            raise Faulty(span, f"{name} has its own meaning in C", "choose another name")

    def variable(self, name, span):
        if name not in self.variables:
            raise Faulty(span, f"{name} is not declared")
        return self.variables[name]
