"""Memory after a run, in its parts: variables, registers and blocks, with a name for each word."""

from copy import copy
from dataclasses import dataclass, replace

from .table import CAST, MALLOC, RECORD


@dataclass(frozen=True)
class Region:
    """Words `start` to before `end` that belong together. `unit` is what they are a row of: a type, or RECORD + r; None where nothing tells."""

    what: str  # variable, register or block
    name: str
    start: int
    end: int
    unit: int = None
    command: int = None  # the command that obtained a block

    @property
    def title(self):
        return f"{self.what} {self.name}"


class Regions:
    """The regions of a call's memory. Where blocks begin is asked of the machine: in a memory that ends one word before the last block does, the
    run finds no room for it, and answers where it would have begun and which command wanted it; and so on down to the first."""

    def __init__(self, routine, machine, call, answer):
        self.table, self.names = routine.table, routine.names
        self.words = answer.words
        self.all = self.variables() + self.registers(call.registers)
        self.all += self.typed(obtained(machine, call, answer, self.all[-1].end if self.all else 1))

    def carried_on(self, words, further):
        """The regions of a run that goes on where this one ended, by the words that it leaves and what it obtains further."""
        later = copy(self)
        later.words, later.all = words, self.all + further
        return later

    def variables(self):
        types = self.table.variables
        return [Region("variable", name, 1 + i, 2 + i, types[i]) for i, name in enumerate(self.names.variables)]

    def registers(self, words):
        found, at, start = [], 1, 1 + len(self.table.variables)
        for _ in range(words[0]):
            variable, length = words[at], words[at + 1]
            unit = self.table.target(self.table.variables[variable])
            if length:
                found.append(Region("register", self.names.variables[variable], start, start + length, unit))
            at, start = at + 2 + length, start + length
        return found

    def typed(self, blocks):
        """Blocks with their units: what malloc's pointer was cast to, or else what a pointer variable that leads to the block points to."""
        for command in {block.command for block in blocks}:
            here = [at for at, block in enumerate(blocks) if block.command == command]
            units = self.malloc_units(command)
            if len(units) != len(here):  # a malloc of 0 words, or one that was not come to: which, nothing tells
                units = units[:1] * len(here) if len(set(units)) == 1 else []
            for at, unit in zip(here, units):
                blocks[at] = replace(blocks[at], unit=unit)
        return [block if block.unit is not None else replace(block, unit=self.unit_of_pointer(block.start)) for block in blocks]

    def malloc_units(self, command):
        """For each malloc of a command, in the order in which they are worked out, what its pointer is cast to point to."""
        nodes = self.table.nodes_of(command)
        casts = {self.table.nodes[n][1]: self.table.nodes[n][2] for n in nodes if self.table.nodes[n][0] == CAST}
        return [self.table.target(casts[n]) if n in casts else None for n in nodes if self.table.nodes[n][0] == MALLOC]

    def unit_of_pointer(self, start):
        for region in self.all:
            value, base, end = self.words[region.start]
            if region.what == "variable" and value == start and end and self.table.target(region.unit) is not None:
                return self.table.target(region.unit)
        return None

    def of(self, word):
        """The region of a word, or None."""
        return next((region for region in self.all if region.start <= word < region.end), None)

    def at(self, region, word):
        """A word's name within its region, its type, and the first and last word of the field that it is of."""
        offset, unit = word - region.start, region.unit
        if region.what == "variable":
            return "", unit, (word, word + 1)
        if unit is None or unit < RECORD:
            return f"[{offset}]", unit, (region.start, region.end)
        size = self.table.record_size(unit - RECORD)
        row, offset = divmod(offset, size)
        name, type, first, count = self.field_at(unit - RECORD, offset)
        prefix = f"[{row}]." if region.end - region.start > size else ""
        start = word - offset + first
        index = f"[{offset - first}]" if name.is_array else ""
        return f"{prefix}{name.name}{index}", type, (start, start + count)

    def record_around(self, region, word):
        """The first word of the record that a word is in, and the word after it."""
        size = self.table.record_size(region.unit - RECORD)
        start = word - (word - region.start) % size
        return start, start + size

    def field_at(self, record, offset):
        """The field of a record that has the word at this offset: name, type, offset and words."""
        first, after = self.table.record_fields(record)
        begin = 0
        for number in range(first, after):
            type, count = self.table.fields[number]
            if offset < begin + count:
                return self.names.fields[number], type, begin, count
            begin += count
        raise IndexError(offset)

    def word_name(self, word, pointer=None):
        """A word by name, or None for one that is not in use. For a pointer to a record, the record that begins there."""
        region = self.of(word)
        if region is None:
            return None
        name = self.at(region, word)[0]
        record = None if pointer is None else self.table.record_of(pointer)
        if record is not None and region.unit == RECORD + record:
            if (word - region.start) % self.table.record_size(record) == 0:
                name = name.rpartition(".")[0]  # `[2].floor` begins record [2], and `floor` the only one
        return f"{region.title}, {name}" if name else region.title

    def stretch_name(self, base, end):
        """Words from `base` to before `end` by name: a region, a field of one, or from one word to another."""
        region = self.of(base)
        if region is None or end > region.end:
            return f"words {base} to {end - 1}"
        if (base, end) == (region.start, region.end):
            return region.title
        name, _, extent = self.at(region, base)
        if (base, end) == extent and region.unit is not None and region.unit >= RECORD:
            return f"{region.title}, {name.removesuffix('[0]')}"
        if region.unit is not None and region.unit >= RECORD and (base, end) == self.record_around(region, base):
            return f"{region.title}, {name.partition('.')[0]}"
        last = self.at(region, end - 1)[0]
        return f"{region.title}, {name}" + (f" to {last}" if end - base > 1 else "")


def obtained(machine, call, answer, first):
    """The blocks that a run obtained, lowest first."""
    blocks, end = [], answer.unused
    while end > first:
        (shorter,) = machine.explain([replace(call, memory=end - 1)])
        blocks.insert(0, Region("block", str(shorter.unused), shorter.unused, end, command=shorter.command))
        end = shorter.unused
    return blocks
