"""What the tests of docs/TABLE.md share: the page, the machine, and the page's examples as calls."""

import dataclasses
import re

from pages import Page, beside, codes, numbers
from workbench import text
from workbench.commands import raw_lines
from workbench.machine import Call, Machine
from workbench.source import Source
from workbench.table import FIRST_POINTER, Table
from workbench.translate import translate

PAGE = Page("docs/TABLE.md")
MACHINE = Machine()
NO_COMMANDS = [0, 0]  # sections 5 and 6 without entries


def first_line(answer):
    return raw_lines(answer)[0]


def not_clear(answer):
    """The words that are not clear, as the page writes them."""
    return [line for line in raw_lines(answer)[1:] if not line.endswith(" 0 0 0")]


def routine_of(declarations, *commands):
    """The routine of C declarations and commands."""
    return translate("page.c", "\n".join([declarations, "void routine(void) {", *(f"{command};" for command in commands), "}"]))


def call_of(routine, memory=16, registers=(0,)):
    """The call of a routine with all inputs 0."""
    return Call(routine.table.words(), memory, [0] * len(routine.table.variables), list(registers))


def call_of_text(given):
    """The call that a bench text asks for."""
    read = text.read_text(Source("text", given))
    return Call(read.words, read.memory, read.inputs)


def declared(lines):
    """Declarations with their numbers beside them: the words, the C, and the types that are told by number."""
    pairs = [beside(line) for line in lines]
    words = [number for listed, _ in pairs for number in listed]
    c = "\n".join(re.sub(r"  +.*", "", remark) for _, remark in pairs if not remark.startswith("type"))
    types = {int(word): name for _, remark in pairs for word, name in re.findall(r"type (\d+): (.*?)(?=;|  |$)", remark)}
    return words, c, types


def type_names(routine, table):
    """The pointer types of a table by number, with the routine's names of structs."""
    return {word: routine.names.type(table, word) for word in range(FIRST_POINTER, FIRST_POINTER + len(table.pointers))}


def shared_declarations():
    """The declarations that the examples of each kind and those of evaluation, bounds and allocation begin with."""
    (lines,) = PAGE.shown("An example of each kind")
    return declared(lines)


def sharing_rows():
    """Those examples: the kind, or None, and the code of the C, the nodes, the commands and the answer."""
    for kind, *row in PAGE.rows("An example of each kind", "Kind | C | Nodes | Commands | Answer"):
        yield int(kind), *map(codes, row)
    for row in PAGE.rows("Examples of evaluation, bounds and allocation", "C | Nodes | Commands | Answer"):
        yield None, *map(codes, row)


def sharing_calls():
    """Those examples as calls."""
    for _, _, nodes, commands, _ in sharing_rows():
        yield shared_call(nodes, commands)


def shared_call(nodes, commands, edition=1):
    """The call of nodes and commands behind those declarations."""
    (memory,) = PAGE.said(r"All examples have memory of (\d+) words and start with these declarations")
    words, _, _ = shared_declarations()
    sections = [len(nodes), *numbers(" ".join(nodes)), len(commands), *numbers(" ".join(commands))]
    return Call([*Table(edition=edition).head(), *words, *sections], int(memory), [0, 0, 0])


def edition_rows():
    """The examples of the editions, which begin with the same declarations: the code of the C, the nodes, the commands and both answers."""
    for row in PAGE.rows("Editions", "C | Nodes | Commands | Edition 1 | Edition 2"):
        yield list(map(codes, row))


@dataclasses.dataclass
class WorkedExample:
    """The page's worked example: the lines of its blocks."""

    c: list
    written_out: list
    declarations: list
    text: list
    output: list

    @staticmethod
    def of_page():
        return WorkedExample(*PAGE.shown("Worked example"))

    def routine(self):
        return translate("car.c", "\n".join(self.c))

    def call(self):
        return call_of_text("\n".join(self.text))

    def with_constant(self, new, old):
        """The call with another constant in the node that the page tells of."""
        (node,) = PAGE.said(r"With \d+ in place of \d+ in node (\d+)")
        call = self.call()
        table = Table.of(call.table)
        kind, constant, b = table.nodes[int(node)]
        if constant != old:
            raise AssertionError(f"node {node} has the constant {constant}, and the page says {old}")
        table.nodes[int(node)] = (kind, new, b)
        return dataclasses.replace(call, table=table.words())
