"""Tables made from a table, in its edition: cut after a command, cut with a pointer sent out of its bounds, and with another source of a copy."""

from dataclasses import replace

from .table import CAST, CONSTANT, OPERANDS, PLACE, SECTIONS, SUM, VALUE

FAR = 1 << 31  # no memory reaches this far, so a pointer moved by it is out of every bounds
NODES_AT_MOST = next(section.most for section in SECTIONS if section.name == "nodes")


def prefix(table, count):
    """The table with its first `count` commands alone, and the old numbers of its nodes."""
    kept = sorted(node for command in range(count) for node in table.nodes_of(command))
    return renumbered(table, [(node, table.nodes[node]) for node in kept], count)


def probe(table, node, count, operand=0):
    """The first `count` commands with one check made to fail on purpose: the pointer that it goes by, an operand of the node, is moved by FAR.
    Everything before it is worked out as in the table itself, so that the run aborts at that very node, and its explanation tells where the
    pointer points. None where the table has no room for the two nodes more."""
    kept = sorted(node for command in range(count) for node in table.nodes_of(command))
    if len(kept) + 2 > NODES_AT_MOST:
        return None
    entries = []
    for number in kept:
        words = list(table.nodes[number])
        if number == node:
            pointer = words[1 + operand]
            entries += [("by", (CONSTANT, steps_to(table, pointer), 0)), ("moved", (SUM, pointer, "by"))]
            words[1 + operand] = "moved"
        entries.append((number, words))
    return renumbered(table, entries, count)


def with_source(table, copy, number):
    """The table with a number, which as a pointer has no bounds, as the source of a copy. It is no longer than the table: what it takes the
    place of has two nodes or more, as every pointer has."""
    source = table.nodes[copy][2]
    dropped = table.worked_out(source)
    entries = []
    for node, words in enumerate(table.nodes):
        if node == source:
            entries += [("number", (CONSTANT, number, 0)), (node, (CAST, "number", table.node_type(node)))]
        elif node not in dropped:
            entries.append((node, words))
    return renumbered(table, entries, len(table.commands))[0]


def steps_to(table, pointer):
    """What to add to a pointer to move it by FAR. A record's pointer moves by the record's size, an odd number times a power of two: the
    sum wraps at 2^32, and there FAR times the odd number is FAR."""
    record = table.record_of(table.node_type(pointer))
    size = 1 if record is None else table.record_size(record)
    return FAR // (size & -size)


def renumbered(table, entries, count):
    """The table with these nodes, given as name and words with names for children, and its first `count` commands; and the nodes' names."""
    numbers = {name: number for number, (name, _) in enumerate(entries)}
    nodes = []
    for _, (kind, *operands) in entries:
        nodes.append((kind, *(numbers[word] if role in (VALUE, PLACE) else word for role, word in zip(OPERANDS[kind], operands))))
    commands = [(numbers[place], numbers[value]) for place, value in table.commands[:count]]
    return replace(table, nodes=nodes, commands=commands), list(numbers)
