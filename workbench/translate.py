"""From a C text to a table."""

from .c import types
from .c.expressions import Node
from .c.parse import parse
from .c.statements import Reader
from .errors import Faulty
from .names import COPIED, FieldName, Names
from .routine import Routine
from .source import Source
from .table import ADDRESS, COPY, FIRST_POINTER, INT, RECORD, SECTIONS, VOID_POINTER, Table

CALLED = {"records": "structs", "pointers": "pointer types"}


def translate(name, text, edition=1):
    """The routine of a C text of this name, in an edition. Raises Faulty for what is not in the fragment."""
    source = Source(name, text)
    return Numbering(Reader(source, *parse(source)).read(), edition).routine()


class Numbering:
    """Gives types, variables and nodes their numbers: pointer types as they are met, nodes as they are worked out."""

    def __init__(self, text, edition):
        self.text, self.table, self.node_spans, self.struct_spans = text, Table(edition=edition), [], {}

    def routine(self):
        scope = self.text.scope
        self.table.records = [len(record.members) for record in scope.records]
        members = [member for record in scope.records for member in record.members]
        self.table.fields = [(self.type(types.element_of(member.type)), member.type.size) for member in members]
        self.table.variables = [self.type(variable.type) for variable in scope.variables.values()]
        for command in self.text.commands:
            self.table.commands.append((self.node(command.place), self.node(command.value)))
        self.refuse_too_many(members)
        fields = [FieldName(member.name, isinstance(member.type, types.Array)) for member in members]
        names = Names(list(scope.variables), [record.tag for record in scope.records], fields)
        spans = [command.span for command in self.text.commands]
        return Routine(self.text.source, self.table, names, self.node_spans, spans, scope, self.struct_spans)

    def type(self, type):
        """The number of a type; a pointer type gets an entry when it is first met."""
        if isinstance(type, types.Int):
            return INT
        if type == types.VOID_POINTER:
            return VOID_POINTER
        target = self.target(type.target)
        if target not in self.table.pointers:
            self.table.pointers.append(target)
        return FIRST_POINTER + self.table.pointers.index(target)

    def target(self, type):
        return RECORD + type.number if isinstance(type, types.Record) else self.type(type)

    def node(self, node):
        """Adds a node after its operands, and gives its number."""
        if node.kind == ADDRESS:
            self.type(node.type)  # the table must have the type, though no word of the node names it
        operands = [self.operand(part) for part in (node.a, node.b)]
        if node.kind == COPY:
            self.struct_spans[len(self.table.nodes)] = (node.a.span, node.b.span)
        self.table.nodes.append((node.kind, *operands))
        self.node_spans.append(node.span)
        return len(self.table.nodes) - 1

    def operand(self, part):
        if isinstance(part, Node):
            return self.node(part if part.kind is not None else part.a)  # a whole struct goes by its pointer
        return part if isinstance(part, int) else self.target(part)

    def refuse_too_many(self, members):
        """More entries than a section takes. The message tells of all that have too many, and points at the first such entry."""
        counts = {section: len(getattr(self.table, section.name)) for section in SECTIONS}
        over = [section for section, count in counts.items() if count > section.most]
        if over:
            told = " and ".join(f"{counts[section]} {self.called(section)} (at most {section.most})" for section in over)
            raise Faulty(self.span_of(over[0], members), f"the routine has {told}")

    def called(self, section):
        """A section's entries in a sentence; of the variables also the one that the text does not declare."""
        if section.name == "variables" and COPIED in self.text.scope.variables:
            return "variables, with one for its struct assignments"
        return CALLED.get(section.name, section.name)

    def span_of(self, section, members):
        """The stretch of the first entry that a section does not take any more."""
        declared = {"records": self.text.scope.records, "fields": members, "variables": list(self.text.scope.variables.values())}
        if section.name in declared:
            return declared[section.name][section.most].span
        return self.node_spans[min(section.most, len(self.node_spans) - 1)]
