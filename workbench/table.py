"""A table as document 01 lays it out: six sections of entries, each section after its count. Before them stand a mark and the edition, unless that is
1."""

from dataclasses import dataclass, field

RECORD = 65536  # a target or a size names record r as RECORD + r
WORD = 1 << 32  # words are below this
INT, VOID_POINTER, FIRST_POINTER = 0, 1, 2  # types: int, pointer to void, pointer entry 0
EDITIONS = (1, 2)  # of the cast rule
MARK = WORD - 1  # the first word of a table of an edition other than 1

(VARIABLE, DEREF, FIELD, CONSTANT, SUM, READ, ADDRESS, CAST, SIZE, MALLOC, COPY) = range(1, 12)
KIND_NAMES = {
    VARIABLE: "variable",
    DEREF: "follow",
    FIELD: "field",
    CONSTANT: "constant",
    SUM: "sum",
    READ: "read",
    ADDRESS: "address",
    CAST: "cast",
    SIZE: "size",
    MALLOC: "malloc",
    COPY: "copy",
}
# What a node's a and b are.
VALUE, PLACE, UNUSED = "value", "place", "unused"
OPERANDS = {
    VARIABLE: ("variable", UNUSED),
    DEREF: (VALUE, UNUSED),
    FIELD: (VALUE, "field"),
    CONSTANT: ("word", UNUSED),
    SUM: (VALUE, VALUE),
    READ: (PLACE, UNUSED),
    ADDRESS: (PLACE, UNUSED),
    CAST: (VALUE, "type"),
    SIZE: ("target", UNUSED),
    MALLOC: (VALUE, UNUSED),
    COPY: (VALUE, VALUE),
}
FIELD_WORDS = 4096  # the most words that a field has


@dataclass(frozen=True)
class Section:
    """One of the six: what its entries are, how many it may have, and what the words of an entry are."""

    number: int
    name: str
    most: int
    words: tuple


SECTIONS = (
    Section(1, "records", 32, ("number of fields",)),
    Section(2, "fields", 128, ("type", "count of words")),
    Section(3, "pointers", 64, ("target",)),
    Section(4, "variables", 64, ("type",)),
    Section(5, "nodes", 512, ("kind", "a", "b")),
    Section(6, "commands", 256, ("place node", "value node")),
)
HEAD = Section(0, "head", 1, ("mark", "edition"))  # the two words that can stand before section 1


def head_length(words):
    """How many words stand before section 1."""
    return len(HEAD.words) if words[:1] == [MARK] else 0


@dataclass
class Table:
    """The entries of the six sections: words, or tuples of words; and the edition."""

    records: list = field(default_factory=list)
    fields: list = field(default_factory=list)
    pointers: list = field(default_factory=list)
    variables: list = field(default_factory=list)
    nodes: list = field(default_factory=list)
    commands: list = field(default_factory=list)
    edition: int = 1

    @property
    def is_marked(self):
        return self.edition != 1

    @property
    def ints_have_bounds(self):
        """Whether ints have bounds as pointers do, through casts, reads, sums and assignments."""
        return self.edition == 2

    def head(self):
        """The words before section 1."""
        return [MARK, self.edition] if self.is_marked else []

    def sections(self):
        """Each section's entries as lists of words."""
        singles = ([(word,) for word in words] for words in (self.records, self.pointers, self.variables))
        records, pointers, variables = singles
        return records, self.fields, pointers, variables, self.nodes, self.commands

    def words(self):
        """The table as the machine takes it."""
        words = self.head()
        for entries in self.sections():
            words.append(len(entries))
            for entry in entries:
                words.extend(entry)
        return words

    @staticmethod
    def of(words):
        """The table of words that are cut up rightly: of a table that is refused by 4 or above, or passes."""
        at = head_length(words)
        table = Table(edition=words[1] if at else 1)
        for section in SECTIONS:
            count, width = words[at], len(section.words)
            ends = range(at + 1 + width, at + 1 + width * (count + 1), width)
            entries = [tuple(words[end - width : end]) for end in ends]
            setattr(table, section.name, [entry[0] for entry in entries] if width == 1 else entries)
            at += 1 + width * count
        return table

    def record_fields(self, record):
        """The numbers of a record's first field and of the field after its last, among all fields."""
        first = sum(self.records[:record])
        return first, first + self.records[record]

    def record_size(self, record):
        first, after = self.record_fields(record)
        return sum(count for _, count in self.fields[first:after])

    def offset(self, record, number):
        first, _ = self.record_fields(record)
        return sum(count for _, count in self.fields[first : first + number])

    def target(self, kind_of_pointer):
        """What a pointer type points to: a type, RECORD + r, or None for pointer to void and int."""
        return self.pointers[kind_of_pointer - FIRST_POINTER] if kind_of_pointer >= FIRST_POINTER else None

    def record_of(self, pointer):
        """The record that a pointer type points to, or None."""
        target = self.target(pointer)
        return target - RECORD if target is not None and target >= RECORD else None

    def node_type(self, number):
        """The type of a node of a table that passes the check."""
        kind, a, b = self.nodes[number]
        if kind == VARIABLE:
            return self.variables[a]
        if kind == DEREF:
            return self.target(self.node_type(a))
        if kind == FIELD:
            first, _ = self.record_fields(self.record_of(self.node_type(a)))
            return self.fields[first + b][0]
        if kind == ADDRESS:
            return FIRST_POINTER + self.pointers.index(self.node_type(a))
        if kind == CAST:
            return b
        if kind == MALLOC:
            return VOID_POINTER
        return INT if kind in (CONSTANT, SIZE, COPY) else self.node_type(a)

    def children(self, number):
        """A node's own nodes, in the order in which they are worked out."""
        kind, *operands = self.nodes[number]
        return [child for role, child in zip(OPERANDS[kind], operands) if role in (VALUE, PLACE)]

    def worked_out(self, number):
        """A node with all below it, in the order in which the machine finishes them."""
        order, stack = [], [number]
        while stack:
            order.append(stack.pop())
            stack.extend(self.children(order[-1]))
        return order[::-1]

    def nodes_of(self, command):
        """A command's nodes in the order in which they are worked out. Each node is used once, so they are its two trees."""
        place, value = self.commands[command]
        return self.worked_out(place) + self.worked_out(value)

    def copied(self):
        """The variable that C's assignments of whole structs have as their place: the last one, an int, in commands whose value is a copy and
        nowhere else. None where there is no such variable."""
        last = len(self.variables) - 1
        named = {number for number, (kind, a, _) in enumerate(self.nodes) if (kind, a) == (VARIABLE, last)}
        places = {place for place, value in self.commands if self.nodes[value][0] == COPY}
        return last if named and named <= places and self.variables[last] == INT else None


@dataclass(frozen=True)
class Spot:
    """Where a word of a table stands: a section, or the head, an entry of it and a word of the entry. An entry of None is the section's count; a
    section of None is past the last section."""

    section: Section = None
    entry: int = None
    word: int = None

    def __str__(self):
        if self.section is None:
            return "after section 6, the last one"
        if self.section is HEAD:
            return f"before section 1, the {HEAD.words[self.word]}"
        name = f"section {self.section.number} ({self.section.name})"
        if self.entry is None:
            return f"{name}, its count"
        words = self.section.words
        return f"{name}, entry {self.entry}, its {words[self.word]}" if len(words) > 1 else f"{name}, entry {self.entry}"


def spot(words, place):
    """Where the word at this place of a list of words stands, read as a table; also one word past a list that is cut short."""
    at = head_length(words)
    if place < at:
        return Spot(HEAD, 0, place)
    for section in SECTIONS:
        if place == at or at >= len(words):
            return Spot(section)
        width = len(section.words)
        entry, word = divmod(place - at - 1, width)
        if entry < words[at]:
            return Spot(section, entry, word)
        at += 1 + width * words[at]
    return Spot()
