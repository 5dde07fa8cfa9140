"""A table as C with its entries beside it. For a table that was made from C, the C that is printed gives the same table again, in the edition that
it names. What C can't say is in a comment, with its nodes."""

from .errors import Faulty, Usage
from .table import CAST, SIZE
from .translate import translate

UNSAYABLE = "C can't say this:"
UNTRIED = "/* pycparser is missing, so that this C was not translated to see that it gives the same table */"


def shown_table(routine):
    """The lines: the edition, unless it is 1, types, variables, then the commands with their nodes."""
    declared = declarations(routine)
    count = len(routine.table.commands)
    commands = [routine.unparser.command(number) for number in range(count)]
    try:
        said, remark = are_said(routine, range(count), declared, commands), []
    except Usage:
        said, remark = True, [UNTRIED]
    lines = [*edition_lines(routine.table), *remark, *declared, "void routine(void) {"]
    for number, command in enumerate(commands):
        lines += node_lines(routine, number)
        is_c = said or are_said(routine, [number], declared, [command])
        lines.append(f"    {command}" if is_c else f"    /* {UNSAYABLE} {command} */")
    return lines + ["}"]


def edition_lines(table):
    """C has no word for it."""
    return [f"/* edition {table.edition}: build it with --edition {table.edition} */"] if table.is_marked else []


def declarations(routine):
    """Records with their fields, and variables. Pointer types are those that these and the commands mention."""
    lines = []
    for record in range(len(routine.table.records)):
        lines += record_lines(routine, record)
    return lines + [variable_line(routine, number) for number in range(len(routine.table.variables))] + [""]


def variable_line(routine, number):
    """A variable. The one that struct assignments make is not declared."""
    type, name = routine.table.variables[number], routine.names.variables[number]
    comment = f"variable {number}: {type}, word {1 + number}"
    if number == routine.table.copied():
        return f"/* {comment}, which the struct assignments make */"
    return f"{declared(routine, type, name)} /* {comment} */" if is_finite(routine, type) else f"/* {UNSAYABLE} {comment} */"


def record_lines(routine, record):
    """A struct; in a comment, where one of its fields can't be said."""
    table, names = routine.table, routine.names
    lines = [f"struct {names.records[record]} {{ /* record {record}: {table.record_size(record)} words */"]
    first, after = table.record_fields(record)
    for number in range(first, after):
        type, count = table.fields[number]
        array = f"[{count}]" if names.fields[number].is_array else ""
        lines.append(f"    {declared(routine, type, names.fields[number].name + array)} /* field {number - first}: {type} {count} */")
    if all(is_finite(routine, type) for type, _ in table.fields[first:after]):
        return lines + ["};", ""]
    inner = [line.replace("/* ", "").replace(" */", "") for line in lines]
    return [f"/* {UNSAYABLE} {inner[0]}", *inner[1:], "}; */", ""]


def is_finite(routine, type):
    """Whether a type ends at an int, void or a record, and does not lead to itself."""
    for _ in range(len(routine.table.pointers) + 1):
        target = routine.table.target(type)
        if target is None or routine.table.record_of(type) is not None:
            return True
        type = target
    return False


def declared(routine, type, name):
    """The declaration of a name."""
    text = routine.names.type(routine.table, type)
    space = "" if text.endswith("*") else " "
    return f"{text}{space}{name};"


def node_lines(routine, number):
    """A command's nodes, in a comment."""
    place, value = routine.table.commands[number]
    lines = [f"    /* command {number}: {place} {value}", *(f"       {line}" for line in routine.node_lines(number))]
    return lines[:-1] + [f"{lines[-1]} */"]


def are_said(routine, numbers, declared, commands):
    """Whether the C of these commands gives just their nodes."""
    try:
        again = translate("shown.c", "\n".join([*declared, "void routine(void) {", *commands, "}"]))
    except Faulty:
        return False
    pairs = zip((routine.table.commands[number] for number in numbers), again.table.commands)
    return all(tree(routine, ours[side]) == tree(again, theirs[side]) for ours, theirs in pairs for side in (0, 1))


def tree(routine, node):
    """A node and all below it, with types by name, since their numbers are each table's own."""
    table = routine.table
    kind, a, b = table.nodes[node]
    children = [tree(routine, child) for child in table.children(node)]
    named = {CAST: b, SIZE: a}
    type = routine.names.type(table, named[kind]) if kind in named else (a, b)[len(children) :]
    return kind, type, children
