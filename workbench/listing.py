"""The listing of a routine: each line of C with the entries of the table that it makes."""

from collections import defaultdict

from .names import COPIED
from .table import FIRST_POINTER


def listing(routine):
    """The edition, where the table says it; all lines of the C, each followed by its entries; then the pointer types, which come from anywhere."""
    entries = defaultdict(list)
    declared(entries, routine, routine.scope)
    commanded(entries, routine)
    table = routine.table
    lines = [f"        edition {table.edition}: {' '.join(map(str, table.head()))}"] if table.is_marked else []
    for number, line in enumerate(routine.source.text.rstrip("\n").split("\n"), 1):
        lines.append(f"{number:5} | {line}".rstrip())
        lines += [f"        {entry}" for entry in entries[number]]
    return lines + pointer_types(routine)


def declared(entries, routine, scope):
    """Records, fields and variables, by the line of their names."""
    table, names = routine.table, routine.names
    number = 0
    for record in scope.records:
        entries[record.span.line].append(f"record {record.number}: {len(record.members)} fields, {record.size} words")
        for at, member in enumerate(record.members):
            type, count = table.fields[number]
            offset = table.offset(record.number, at)
            entries[member.span.line].append(f"field {at} of record {record.number}: {type} {count}, at offset {offset}")
            number += 1
    for variable in scope.variables.values():
        word = table.variables[variable.number]
        what = f": {COPIED}, by the last struct assignment" if variable.name == COPIED else ""
        entries[variable.span.line].append(f"variable {variable.number}: {word}, {names.type(table, word)}, word {1 + variable.number}{what}")


def commanded(entries, routine):
    """Commands with their nodes, by the line that they begin in."""
    for number, (place, value) in enumerate(routine.table.commands):
        below = entries[routine.command_spans[number].line]
        below.append(f"command {number}: {place} {value}")
        below += [f"  {line}" for line in routine.node_lines(number)]


def pointer_types(routine):
    table, names = routine.table, routine.names
    entries = [f"        {target:<6} type {word}: {names.type(table, word)}" for word, target in enumerate(table.pointers, FIRST_POINTER)]
    return (["", "pointer types"] if entries else []) + entries
