"""A refused table in words: what is wrong with the word at the place that the machine answers, and what would fit. The machine alone refuses; this
says in words what docs/TABLE.md says of the number and the place."""

from dataclasses import dataclass
from functools import cached_property
from typing import Callable

from .table import ADDRESS, CAST, COPY, DEREF, FIELD, FIELD_WORDS, FIRST_POINTER, HEAD, INT, KIND_NAMES, MALLOC, MARK, OPERANDS, PLACE, READ
from .table import RECORD, SECTIONS, SUM, UNUSED, VALUE, Spot, Table, head_length, spot
from .wording import a_type, base_of, counted, listed, node_words, type_words

RECORDS, FIELDS, POINTERS, VARIABLES, NODES, COMMANDS = SECTIONS


def is_int(table, type_):
    return type_ == INT


def points_to_type(table, type_):
    return table.target(type_) is not None and table.record_of(type_) is None


def points_to_record(table, type_):
    return table.record_of(type_) is not None


@dataclass(frozen=True)
class Need:
    """Which type an operand of a node must have: operand 0 is a, operand 1 is b."""

    operand: int
    what: str
    why: str
    fits: Callable


NEEDS = {
    DEREF: Need(0, "a pointer to a type", "kind 2 follows a pointer to a type", points_to_type),
    FIELD: Need(0, "a pointer to a record", "kind 3 takes a field by a pointer to a record", points_to_record),
    SUM: Need(1, "an int", "kind 5 adds an int to its a", is_int),
    MALLOC: Need(0, "an int", "kind 10 takes an int, the number of words", is_int),
}


@dataclass(frozen=True)
class Fault:
    """What is wrong, in a few words and in a sentence with the numbers, and what would fit."""

    title: str
    wrong: str
    fits: str


@dataclass
class Case:
    """A refused table, the place answered and what stands there."""

    words: list
    place: int
    at: Spot

    @cached_property
    def table(self):
        """For refusals from 4 to 9: the words are cut up rightly then."""
        return Table.of(self.words)

    @property
    def word(self):
        return self.words[self.place]

    def count_place(self, section):
        at = head_length(self.words)
        for before in SECTIONS[: section.number - 1]:
            at += 1 + len(before.words) * self.words[at]
        return at


def table_fault(words, number, place):
    """What is wrong with a table that the machine refuses by 1 to 9 or 16."""
    return Fault(*FAULTS[number](Case(words, place, spot(words, place))))


def name_of(section):
    return f"section {section.number} ({section.name})"


# Refusals 16 and 1 to 3: the edition, and how the words fall into sections.


def wrong_edition(case):
    why = "a table of edition 1 has no mark" if case.word == 1 else f"there is no edition {case.word}"
    return "another edition than 2", f"{case.word} follows the mark {MARK}, and {why}", "2; or neither of the two words, for edition 1"


def cut_short(case):
    at, section, title = case.at, case.at.section, "the table ends too soon"
    if section is HEAD:
        return title, f"the table has 1 word, the mark {MARK}, and ends before the edition", "2, then the six sections"
    later = [str(after.number) for after in SECTIONS[section.number :]]
    rest = f", then section{'s' if len(later) > 1 else ''} {listed(later)}" if later else ""
    if at.entry is None:
        wrong = f"the table has {counted(len(case.words), 'word')} and ends before the count of {name_of(section)}"
        return title, wrong, f"the count of section {section.number}{rest}; a section without entries is the word 0"
    count = case.words[case.count_place(section)]
    part = f" and {counted(at.word, 'word')} of the next" if at.word else ""
    wrong = f"the count of {name_of(section)} is {count}, and the table ends after {counted(at.entry, 'entry')}{part}"
    missing = counted((count - at.entry) * len(section.words) - at.word, "more word")
    fewer = f", or a count of {at.entry}" if not rest and not at.word else ""
    return title, wrong, f"{missing} of section {section.number}{rest}{fewer}"


def words_over(case):
    over, at = len(case.words) - case.place, case.count_place(COMMANDS)
    count = case.words[at]
    wrong = f"{counted(over, 'word')} follow{'s' if over == 1 else ''} section 6 (commands), whose count, at place {at}, is {count}"
    entries = count + over // 2
    more = f", or a count of {entries} at place {at}" if over % 2 == 0 and entries <= COMMANDS.most else ""
    return "words after the last section", wrong, f"nothing after section 6{more}"


def too_many(case):
    section = case.at.section
    wrong = f"the count is {case.word}, and {name_of(section)} has at most {counted(section.most, 'entry')}"
    return "a count above its maximum", wrong, f"at most {section.most}"


# Refusals 4 to 6: records, fields, pointers, variables.


def wrong_count(case):
    table, at = case.table, case.at
    if at.section is RECORDS:
        return "a record without fields", f"record {at.entry} has 0 fields", "at least 1"
    if at.entry is not None:
        wrong = f"{field_name(table, at.entry)} has {counted(case.word, 'word')}"
        return "a wrong number of words", wrong, f"from 1 to {FIELD_WORDS}"
    total, count = sum(table.records), len(table.fields)
    wrong = f"the records of section 1 have {counted(total, 'field')} together, and the count of section 2 is {count}"
    ways = [f"a count of {total}"] if total <= FIELDS.most else []
    if count >= max(1, len(table.records)):
        ways.append(f"records that have {counted(count, 'field')} together")
    return "the fields do not add up", wrong, ", or ".join(ways)


def field_name(table, number):
    """A field by its record: `number` counts the fields of all records."""
    record = 0
    while number >= table.records[record]:
        record, number = record + 1, number - table.records[record]
    return f"field {number} of record {record}"


def unknown_type(case):
    table, at = case.table, case.at
    role = OPERANDS[table.nodes[at.entry][0]][at.word - 1] if at.section is NODES else at.section.words[at.word]
    types, records, record = FIRST_POINTER + len(table.pointers), len(table.records), case.word - RECORD
    fits = types_in_words(table)
    if not 0 <= record < RECORDS.most:
        wrong = f"type {case.word} is unknown: section 3 has {counted(types - FIRST_POINTER, 'entry')}, and the last type is {types - 1}"
    elif role == "target":
        wrong = f"{case.word} is record {record}, and section 1 has {counted(records, 'record')}"
    else:
        wrong = f"{case.word} is record {record}, and a record is not a type"
        fits = f"{pointer_to(table, case.word)}; or {fits}" if record < records else fits
    if role == "target" and records:
        fits += f"; or {RECORD} + a record from 0 to {records - 1}"
    return f"unknown {role}", wrong, fits


def types_in_words(table):
    """Which types there are, each in words where they are few and lead somewhere."""
    types = range(FIRST_POINTER + len(table.pointers))
    bases = [base_of(table, number) for number in types]
    known = all(base and base[0] < RECORD + len(table.records) for base in bases)
    names = ", ".join(f"{number} is {type_words(table, number)}" for number in types)
    return f"a type from 0 to {types[-1]}" + (f": {names}" if known and len(types) <= 6 else "")


def pointer_to(table, target):
    """The type that points to a target, or the entry that would make one."""
    if target in table.pointers:
        number = FIRST_POINTER + table.pointers.index(target)
        return f"type {number} ({type_words(table, number)})"
    if len(table.pointers) == POINTERS.most:
        return f"a pointer type to {type_words(table, target)} in place of another"
    made = Table(records=table.records, pointers=table.pointers + [target])
    number = FIRST_POINTER + len(table.pointers)
    return f"an entry of section 3 with target {target}: type {number} would be {type_words(made, number)}"


def same_target(case):
    entry = case.at.entry
    first = case.table.pointers.index(case.word)
    number = FIRST_POINTER + first
    wrong = f"entry {entry} has target {case.word} ({type_words(case.table, case.word)}), and so has entry {first}"
    fits = f"another target; type {number} is the pointer to {type_words(case.table, case.word)} already"
    return "a pointer target seen before", wrong, fits


# Refusal 7: kinds, operands and the words of commands.


def wrong_word(case):
    table, at = case.table, case.at
    if at.section is COMMANDS:
        return wrong_command_word(case)
    kind = table.nodes[at.entry][0]
    if at.word == 0:
        kinds = listed([f"{number} {name}" for number, name in KIND_NAMES.items()])
        return "unknown kind", f"kind {kind} is unknown", f"a kind from 1 to {max(KIND_NAMES)} ({kinds})"
    role, name = OPERANDS[kind][at.word - 1], f"kind {kind} ({KIND_NAMES[kind]})"
    if role == UNUSED:
        return "an unused b is not 0", f"b is {case.word}, and {name} has no b", "0"
    if role == "variable":
        count = len(table.variables)
        fits = f"a variable from 0 to {count - 1}" if count else "a variable in section 4"
        return "no such variable", f"there is no variable {case.word}: section 4 has {counted(count, 'variable')}", fits
    if case.word < at.entry:
        return wrong_sort(table, case.word, role, f"{name} takes a {role} as {at.section.words[at.word]}")
    return "unknown child", f"child {case.word} is not below node {at.entry}", child_that_fits(at.entry, role)


def child_that_fits(node, role):
    if node:
        return f"a node below {node} that is a {role}"
    childless = [str(kind) for kind, roles in OPERANDS.items() if not set(roles) & {VALUE, PLACE}]
    return f"a kind without a child, as no node is below this one: {listed(childless, 'or')}"


def wrong_command_word(case):
    table, at = case.table, case.at
    role, count = (PLACE, VALUE)[at.word], len(table.nodes)
    if case.word < count:
        return wrong_sort(table, case.word, role, f"the {('first', 'second')[at.word]} word of a command is a {role}")
    wrong = f"there is no node {case.word}: section 5 has {counted(count, 'node')}"
    return "unknown node", wrong, f"a node below {count} that is a {role}" if count else f"a {role} in section 5"


def wrong_sort(table, node, role, why):
    """A place where a value belongs, or the reverse."""
    sort = VALUE if role == PLACE else PLACE
    fits = f"a value: a read (kind 6) of node {node}" if role == VALUE else "a place: a node of kind 1, 2 or 3"
    return f"a {sort} where a {role} belongs", f"node {node} is a {sort} ({node_words(table, node)}), and {why}", fits


# Refusal 8: types.


def wrong_types(case):
    table, at, title = case.table, case.at, "types do not fit"
    if at.section is COMMANDS:
        return (title, *types_of_command(table, *table.commands[at.entry]))
    kind, a, b = table.nodes[at.entry]
    type_ = table.node_type(a)
    if kind == COPY:
        return title, types_of_copy(table, a, b), copy_that_fits(table, a, b)
    if kind == ADDRESS:
        return (
            title,
            f"the place, {node_name(table, a)}, is {a_type(table, type_)}, and section 3 has no pointer to that",
            pointer_to(table, type_),
        )
    if kind == FIELD and points_to_record(table, type_):
        record = table.record_of(type_)
        count = table.records[record]
        return "no such field", f"field {b}: record {record} has {counted(count, 'field')}", f"a field from 0 to {count - 1}"
    need = NEEDS[kind]
    child = (a, b)[need.operand]
    wrong = f"{node_name(table, child)} is {a_type(table, table.node_type(child))}, and {need.why}"
    return title, wrong, typed_operand(table, at.entry, need, child)


def types_of_command(table, place, value):
    type_, other = table.node_type(place), table.node_type(value)
    wrong = f"the place, {node_name(table, place)}, is {a_type(table, type_)}, and the value, {node_name(table, value)}, is {a_type(table, other)}"
    return wrong, f"a value of type {type_words(table, type_)}: a cast (kind 8) of node {value} to type {type_}"


def types_of_copy(table, a, b):
    told = [f"{name}, {node_name(table, node)}, is {a_type(table, table.node_type(node))}" for name, node in (("a", a), ("b", b))]
    return f"{told[0]}, and {told[1]}; kind 11 copies between two pointers to one record"


def copy_that_fits(table, a, b):
    """What would fit where the operands of a copy do not: both of the type that one of them has, or of any that points to a record. Casts are
    proposed as for other nodes."""
    own = [table.node_type(a), table.node_type(b)]
    types = [other for other in (*own, *range(FIRST_POINTER, FIRST_POINTER + len(table.pointers))) if points_to_record(table, other)]
    if not types:
        return f"two pointers to one record; section 3 has none (its target would be {RECORD} + a record)"
    wanted = f"type {types[0]} ({type_words(table, types[0])})"
    if not all(can_have_bounds(table, node) for node in (a, b)):
        return f"two pointers to one record, such as {wanted}"
    cast = [f"node {node}" for node, type_ in zip((a, b), own) if type_ != types[0]]
    return f"two pointers to one record: {'a cast' if len(cast) == 1 else 'casts'} (kind 8) of {listed(cast)} to {wanted}"


def can_have_bounds(table, node):
    """Whether a value can have bounds: a pointer can, and where ints can, an int that is not a number of its own."""
    return table.node_type(node) != INT or (table.ints_have_bounds and table.nodes[node][0] in (SUM, READ, CAST))


def typed_operand(table, number, need, child):
    """What would fit where a child's type does not. A cast of what can't have bounds is not proposed: nothing could be followed by it."""
    kind, a, b = table.nodes[number]
    types = [other for other in range(FIRST_POINTER + len(table.pointers)) if need.fits(table, other)]
    if kind == SUM and table.node_type(a) == INT:
        return f"the pointer as a and the int as b: {SUM} {b} {a}"
    if kind == DEREF and points_to_record(table, table.node_type(child)):
        return "kind 3, for a field of the record"
    if not types:
        more = f"an entry with target {INT} would be int *" if kind == DEREF else f"its target would be {RECORD} + a record"
        return f"{need.what}; section 3 has none ({more})"
    cast = f": a cast (kind 8) of node {child} to type {types[0]} ({type_words(table, types[0])})"
    return f"{need.what}{cast if can_have_bounds(table, child) else ''}"


def node_name(table, number):
    return f"node {number} ({node_words(table, number)})"


# Refusal 9: uses.


def wrong_uses(case):
    table, number = case.table, case.at.entry
    by = users(table).get(number, [])
    if not by:
        return "a node that nothing uses", f"{node_name(table, number)} is used by nothing", "one use, by a node above it or by a command"
    below = ", and of those below it" if table.children(number) else ""
    fits = f"one use; a further one needs a copy of the node{below}"
    return "a node used more than once", f"{node_name(table, number)} is used {by_whom(by)}", fits


def users(table):
    """Of each node that is used, who uses it, in the order of the table: ("node", 8), ("command", 3)."""
    found = {}
    for number in range(len(table.nodes)):
        for child in table.children(number):
            found.setdefault(child, []).append(("node", number))
    for number, command in enumerate(table.commands):
        for child in command:
            found.setdefault(child, []).append(("command", number))
    return found


def by_whom(uses):
    """How often, and by whom: not more than six."""
    often = "twice" if len(uses) == 2 else f"{len(uses)} times"
    who = [f"by {who} {at}" + (" as a and as b" if uses.count((who, at)) > 1 else "") for who, at in dict.fromkeys(uses)]
    return f"{often}, {listed(who if len(who) <= 6 else who[:5] + [f'by {len(who) - 5} more'])}"


FAULTS = {
    1: cut_short,
    2: words_over,
    3: too_many,
    4: wrong_count,
    5: unknown_type,
    6: same_target,
    7: wrong_word,
    8: wrong_types,
    9: wrong_uses,
    16: wrong_edition,
}
