"""A routine as the commands work on it: a table with names and the stretches of text that its parts come from."""

from dataclasses import dataclass, field

from .names import Names
from .source import Source
from .table import COPY, Table
from .unparse import Unparser


@dataclass
class Routine:
    """`node_spans` and `command_spans` say where a node and a command stand: in the C, or in the text of numbers. `struct_spans` says of a copy
    in C where the struct that is written and the one that is read stand."""

    source: Source
    table: Table
    names: Names
    node_spans: list
    command_spans: list
    scope: object = None  # the declarations, where there is C
    struct_spans: dict = field(default_factory=dict)

    @property
    def is_c(self):
        return self.scope is not None

    @property
    def unparser(self):
        return Unparser(self.table, self.names)

    def node_name(self, number):
        """A node in a sentence: as it is written in C, or its number and how C would write it."""
        if self.is_c:
            return f"`{self.node_spans[number].text}`"
        return f"node {number}, `{self.unparser.text(number)}`,"

    def check_span(self, cause):
        """Where the check stands that a run failed: a follow or a field, or the struct that a copy could not write or read."""
        spans = self.struct_spans.get(cause.node)
        return spans[cause.operand] if spans else self.node_spans[cause.node]

    def check_name(self, cause):
        """That check in a sentence."""
        if self.is_c:
            return f"`{self.check_span(cause).text}`"
        is_copy = self.table.nodes[cause.node][0] == COPY
        struct = f"`{self.unparser.struct(self.pointer(cause))}` in " if is_copy else ""
        return f"{struct}{self.node_name(cause.node)}"

    def pointer(self, followed):
        """The pointer by which a check goes."""
        return self.table.nodes[followed.node][1 + followed.operand]

    def node_lines(self, command):
        """The nodes of a command: number, words, and how C writes it."""
        told = ((node, " ".join(map(str, self.table.nodes[node]))) for node in self.table.nodes_of(command))
        return [f"{node:3}  {words:<14} {self.unparser.text(node)}" for node, words in told]

    def obtained_by(self, command):
        """Which command obtained a block, in a sentence."""
        return f"obtained in line {self.command_spans[command].line}" if self.is_c else f"obtained by command {command}"


def routine_of_text(text):
    """The routine of a bench text whose table passes the check."""
    table = Table.of(text.words)
    commands_at = len(text.words) - 2 * len(table.commands)
    nodes_at = commands_at - 1 - 3 * len(table.nodes)
    nodes = [text.spans[at].to(text.spans[at + 2]) for at in range(nodes_at, commands_at - 1, 3)]
    commands = [text.spans[at].to(text.spans[at + 1]) for at in range(commands_at, len(text.words), 2)]
    return Routine(text.source, table, Names.numbered(table), nodes, commands)
