"""Types, nodes and numbers in words, for messages."""

from .table import ADDRESS, CAST, CONSTANT, COPY, DEREF, FIELD, FIRST_POINTER, INT, MALLOC, READ, RECORD, SIZE, SUM, VARIABLE, VOID_POINTER

STARS = 4  # a longer chain of pointers, or a circular one, goes by its number
NODE_WORDS = {
    VARIABLE: "variable {a}",
    DEREF: "a follow of node {a}",
    FIELD: "field {b} of what node {a} points to",
    CONSTANT: "a constant, {a}",
    SUM: "a sum of nodes {a} and {b}",
    READ: "a read of node {a}",
    ADDRESS: "the address of node {a}",
    CAST: "a cast of node {a}",
    SIZE: "a size",
    MALLOC: "a malloc of node {a}",
    COPY: "a copy from node {b} to node {a}",
}


def counted(number, name):
    """A number of things: 1 word, 2 words, 3 entries."""
    many = name[:-1] + "ies" if name.endswith("y") else name + "s"
    return f"{number} {name if number == 1 else many}"


def listed(names, last="and"):
    """Names in a row: a, b and c."""
    *first, end = names
    return f"{', '.join(first)} {last} {end}" if first else end


def base_of(table, number):
    """What a type or target comes to in the end, and by how many pointers; None for a chain that is circular or too long, or leads nowhere."""
    target, stars = number, 0
    while FIRST_POINTER <= target < FIRST_POINTER + len(table.pointers) and stars <= STARS:
        target, stars = table.target(target), stars + 1
    return (target, stars) if target >= RECORD or target < FIRST_POINTER else None


def type_words(table, number):
    """A type or target as C would write it, records by number: int, void *, int **, record 0 *."""
    base = base_of(table, number)
    if base is None:
        known = number < FIRST_POINTER + len(table.pointers)
        return f"type {number} (pointer to type {table.target(number)})" if known else f"type {number}"
    target, stars = base
    stars += target == VOID_POINTER
    name = {INT: "int", VOID_POINTER: "void"}.get(target, f"record {target - RECORD}")
    return f"{name} {'*' * stars}" if stars else name


def article(words):
    """A type after "is": an int, a void *."""
    return f"an {words}" if words.startswith("int") else words if words.startswith("type") else f"a {words}"


def a_type(table, number):
    return article(type_words(table, number))


def node_words(table, number):
    """What a node of a known kind is."""
    kind, a, b = table.nodes[number]
    return NODE_WORDS[kind].format(a=a, b=b)
