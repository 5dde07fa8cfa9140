"""The memory of a run as the page shows it: groups of words with names, rows, and at each step the words that changed."""

import copy

from ..memory import FOLDED, grouped, leads, note
from ..table import RECORD

ALL_SHOWN = 64  # a group, or a copy, of so many words is shown word by word, but for clear ones
NO_ARROW, INSIDE, OUTSIDE, UNBOUNDED = range(4)


class Picture:
    """Groups, rows and words of a run. Names and blocks are those of its final memory: blocks are never given back, so that a step's are those
    below its first unused word."""

    def __init__(self, routine, regions, steps):
        self.routine, self.regions, self.steps = routine, regions, steps
        self.groups = [Group(regions, heading, members) for heading, members in grouped(regions, routine)]

    def at_step(self, step):
        """The regions of a step's memory."""
        here = copy.copy(self.regions)
        here.all = [region for region in self.regions.all if region.start < step.unused]
        return here

    def changes(self):
        """At each step the words that look different: word, value, base, end, note and arrow. A pointer out of its bounds may look different
        though it is as it was: where it points, a block may have begun."""
        memory, loose, unused = {}, set(), 0
        for step in self.steps:
            here = self.at_step(step)
            again = loose if step.unused > unused else set()
            memory.update(step.changed)
            yield [self.word(here, word, *memory[word]) for word in sorted({*step.changed, *again})]
            for word, (value, base, end) in step.changed.items():
                (loose.discard if not end or base <= value < end else loose.add)(word)
            unused = step.unused

    def word(self, regions, word, value, base, end):
        region = regions.of(word)
        type = regions.at(region, word)[1]
        return [word, value, base, end, note(regions, type, value, base, end), arrow(regions, type, value, base, end)]

    def in_use(self):
        """The words that the run has to do with: those that are touched, that change, that a pointer leads to, and the ends of bounds. Of a
        large copy these are its ends and, where they are not many, the words that change; what lies between is told apart."""
        used, copied = set(), set()
        for number, step in enumerate(self.steps):
            inner = {word for words in step.copied if len(words) > ALL_SHOWN for word in words[1:-1]}
            if len(step.changed) <= ALL_SHOWN:
                inner.difference_update(step.changed)
            touched = {*step.read, *step.addressed, *step.written, *(step.changed if number else ())}
            used |= touched - inner
            copied |= inner
            kept = [one for word, one in step.changed.items() if one[2] and word not in inner]
            for value, base, end in [(one.word, one.base, one.end) for one in step.followed] + kept:
                used.update((value, base, end - 1))
        return used, copied

    def rows(self, wanted=()):
        """Of each group its rows."""
        (used, copied), start = self.in_use(), self.steps[0].changed
        return [group.rows(used | set(wanted), start, copied) for group in self.groups]


class Group:
    """Words under one heading: all variables, a register or a block."""

    def __init__(self, regions, heading, members):
        self.heading, self.start, self.end = heading, members[0].start, members[-1].end
        self.what, self.name = members[0].what, members[0].title
        unit = members[0].unit
        size = regions.table.record_size(unit - RECORD) if unit is not None and unit >= RECORD else 1
        self.is_row = self.what != "variable" and (size < self.end - self.start or unit is None or unit < RECORD)
        if self.what == "variable":
            words = [(region.name, region.unit) for region in members]
        else:
            words = [regions.at(members[0], word)[:2] for word in range(self.start, min(self.end, self.start + size))]
        self.cells = [name.removeprefix("[0]").removeprefix(".") if self.is_row else name for name, _ in words]
        self.notes = [note(regions, type, 0, 0, 0) for _, type in words]

    def data(self, rows):
        """A word's name is its cell's, behind its index where the cells come in a row; so is the note that it has while it is clear."""
        return {
            "what": self.what,
            "name": "variables" if self.what == "variable" else self.name,
            "heading": self.heading,
            "start": self.start,
            "end": self.end,
            "cells": self.cells,
            "notes": self.notes,
            "row": self.is_row,
            "rows": rows,
        }

    def rows(self, used, start, copied=()):
        """First and last word of each row, and of a fold what its words are. Words that stay as they were at the start are folded, clear ones,
        and others in a large group; and so is what lies within a large copy."""

        def fold(word):
            if word in used or (word in start and self.end - self.start <= ALL_SHOWN):
                return None
            return "copied" if word in copied else "words" if word in start else "clear"

        rows, at = [], self.start
        while at < self.end:
            end, kind = at + 1, fold(at)
            while kind and end < self.end and fold(end) == kind:
                end += 1
            rows += [[word, word] for word in range(at, end)] if end - at < FOLDED else [[at, end - 1, kind]]
            at = end
        return rows


def arrow(regions, type, value, base, end):
    """Whether a word has an arrow, and how it stands to its bounds."""
    if not leads(regions, type, end) or regions.of(value) is None:
        return NO_ARROW
    if not end:
        return UNBOUNDED
    return INSIDE if base <= value < end else OUTSIDE
