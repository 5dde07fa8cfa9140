"""The names that messages use for a table's variables, records and fields: those of the C, or numbered ones."""

from dataclasses import dataclass

from .table import INT, RECORD, VOID_POINTER

COPIED = "(words copied)"  # the variable that has how many words the last assignment of a whole struct copied; no name in C has brackets


@dataclass(frozen=True)
class FieldName:
    name: str
    is_array: bool


@dataclass(frozen=True)
class Names:
    """Variables by number; records by number, and their fields, record by record."""

    variables: list
    records: list
    fields: list

    @staticmethod
    def numbered(table):
        """Names for a table that no C goes with."""
        fields = [FieldName(f"f{number}", table.fields[first + number][1] > 1) for first, number in field_numbers(table)]
        return Names([f"v{i}" for i in range(len(table.variables))], [f"r{i}" for i in range(len(table.records))], fields)

    @property
    def own(self):
        """The variables that the routine itself has, which a caller can name."""
        return [name for name in self.variables if name != COPIED]

    def type(self, table, word, seen=()):
        """A type, or a target, as C writes it."""
        if word >= RECORD:
            return f"struct {self.records[word - RECORD]}"
        if word in (INT, VOID_POINTER):
            return ("int", "void *")[word]
        if word in seen:
            return f"type {word}"  # a pointer type that leads to itself
        target = self.type(table, table.target(word), (*seen, word))
        return target + ("*" if target.endswith("*") else " *")

    def field(self, table, record, number):
        return self.fields[table.record_fields(record)[0] + number]


def field_numbers(table):
    """For each field of a table the number of its record's first field, and its own number in the record."""
    first = 0
    for count in table.records:
        for number in range(count):
            yield first, number
        first += count
