"""How a run ended, in words: where, what was wanted, and by how much it missed."""

from dataclasses import replace
from functools import cached_property

from .machine import LONGEST
from .regions import obtained
from .table import COPY, FIELD, MALLOC, VARIABLE
from .wording import counted

NO_BOUNDS, BEFORE_BASE, PAST_END = 1, 2, 3  # the machine's reasons


class Ending:
    """The ending of a call, with the regions of the memory that it left."""

    def __init__(self, routine, machine, call, answer, regions):
        self.routine, self.machine, self.call, self.answer, self.regions = routine, machine, call, answer, regions
        self.table = routine.table

    def lines(self):
        return {"done": self.done, "abort": self.abort, "noroom": self.no_room}[self.answer.ending]()

    def done(self):
        return [f"{self.routine.source.name}: {self.ending('done')}"]

    def ending(self, word):
        command = "" if self.answer.command is None else f" at command {self.answer.command}"
        return f"{word}{command}, first unused word {self.answer.unused} of {self.call.memory}"

    def abort(self):
        """Like a compiler's message, then what was wanted, whose bounds they are, the miss and the values."""
        cause = self.answer.cause
        name = self.wanted_name(cause)
        told = [
            self.routine.check_span(cause).shown(f"abort: {self.reason(cause)}"),
            f"  wanted: {counted(cause.words, 'word')} at {cause.place}{f': {name}' if name else ''}",
            f"  bounds: {self.bounds(cause)}",
            f"  missed: {self.missed(cause)}",
            f"  values: {', '.join(self.values(cause))}",
            f"  ending: {self.ending('abort')}",
        ]
        return [line for line in told if cause.reason != NO_BOUNDS or not line.startswith("  missed")]

    def wanted_name(self, cause):
        """What stands at the place wanted: a word, or the record that a copy wanted."""
        is_copy = self.table.nodes[cause.node][0] == COPY
        return self.regions.word_name(cause.place, self.table.node_type(self.routine.pointer(cause)) if is_copy else None)

    def reason(self, cause):
        text = self.routine.check_name(cause)
        if cause.reason == NO_BOUNDS:
            return f"{text} follows a pointer without bounds"
        return f"{text} is {self.missed(cause)} of its bounds"

    def missed(self, cause):
        if cause.reason == BEFORE_BASE:
            return f"{counted(cause.base - cause.place, 'word')} before the base"
        return f"{counted(cause.place + cause.words - cause.end, 'word')} past the end"

    def bounds(self, cause):
        if cause.reason == NO_BOUNDS:
            return "none"
        owner = self.regions.of(cause.first)
        by = f", {self.routine.obtained_by(owner.command)}" if owner.command is not None else ""
        return f"[{cause.base}, {cause.end}): {self.regions.stretch_name(cause.base, cause.end)}{by}"

    def values(self, cause):
        """The pointer that was followed, and the variables in it."""
        kind, _, field = self.table.nodes[cause.node]
        pointer = self.routine.pointer(cause)
        offset = self.table.offset(self.table.record_of(self.table.node_type(pointer)), field) if kind == FIELD else 0
        told = {self.routine.unparser.text(pointer): cause.place - offset}
        for node in self.table.worked_out(pointer):
            kind, variable, _ = self.table.nodes[node]
            if kind == VARIABLE:
                told.setdefault(self.routine.names.variables[variable], self.answer.words[1 + variable][0])
        return [f"{name} = {value}" for name, value in told.items()]

    def no_room(self):
        """Which malloc found no room, what it asked for and what was left."""
        answer, memory = self.answer, self.call.memory
        left = memory - answer.unused
        node = self.failed_malloc(answer.command)
        span = self.routine.command_spans[answer.command] if node is None else self.routine.node_spans[node]
        name = "malloc" if node is None else self.routine.node_name(node)
        left = f"{counted(left, 'word')} of {memory} {'is' if left == 1 else 'are'} left"
        return [span.shown(f"no room: {name} asks for {self.asked_for}, and {left}"), f"  ending: {self.ending('no room')}"]

    @cached_property
    def asked_for(self):
        """The words asked for: what the same run obtains there in the longest memory."""
        longer = replace(self.call, memory=LONGEST)
        (answer,) = self.machine.explain([longer])
        start = self.answer.unused
        block = next((block for block in obtained(self.machine, longer, answer, start) if block.start == start), None)
        return counted(block.end - start, "word") if block else f"more than {LONGEST - start} words"

    def failed_malloc(self, command):
        """The command's malloc, or None where it has several."""
        mallocs = [n for n in self.table.nodes_of(command) if self.table.nodes[n][0] == MALLOC]
        return mallocs[0] if len(mallocs) == 1 else None
