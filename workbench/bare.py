"""A bare run, as a controller without bounds makes it: how it ended, how the fenced run of the same call ends, and the memory by name. Both go the
same way up to the check by which the fenced one aborts, so that its variables, registers and blocks are the bare one's too."""

from dataclasses import replace
from functools import cached_property

from .copies import told_apart
from .cuts import prefix
from .endings import Ending
from .machine import LONGEST
from .memory import aligned, memory_lines
from .regions import Region, Regions
from .table import COPY, READ, VARIABLE, WORD
from .wording import counted

NAMED = 8  # as many words that differ are named


def bare_lines(routine, machine, call, answer):
    """The answer of a bare run, in lines."""
    (fenced,) = machine.explain([call])
    fenced = told_apart(machine, call, fenced)
    known = Regions(routine, machine, call, fenced)
    regions = known.carried_on(answer.words, obtained_further(known, machine, call, fenced, answer))
    ending = BareEnding(routine, machine, call, answer, regions, Ending(routine, machine, call, fenced, known))
    return ending.lines() + memory_lines(regions, routine) + past_lines(answer)


def obtained_further(regions, machine, call, fenced, answer):
    """What the bare run obtained where the fenced one did not come to. How far the words of a command go is asked by a run without the later
    commands. They are a block where the command has one malloc; where it has several, nothing tells how many blocks they are."""
    found, start, command = [], fenced.unused, fenced.command
    while start < answer.unused:
        units = regions.malloc_units(command)
        if units:
            (so_far,) = machine.bare([up_to(command, regions.table, call)])
            if so_far.unused > start:
                found.append(obtained_by(command, units, start, so_far.unused))
            start = so_far.unused
        command += 1
    return found


def up_to(command, table, call):
    """The call without the commands after this one."""
    return replace(call, table=prefix(table, command + 1)[0].words())


def obtained_by(command, units, start, end):
    if len(units) == 1:
        return Region("block", str(start), start, end, units[0], command)
    if end - start == 1:
        return Region("block", str(start), start, end, command=command)
    return Region("words", f"{start} to {end - 1}", start, end, command=command)


def past_lines(answer):
    """The words that are not in use and were written nevertheless."""
    rows = [(str(word), "(unused)", str(value), "") for word, (value,) in enumerate(answer.words) if value and word >= answer.unused]
    return ["", "written at or past the first unused word", *aligned(rows)] if rows else []


class BareEnding(Ending):
    """The ending of a bare run, beside that of the fenced one."""

    def __init__(self, routine, machine, call, answer, regions, fenced):
        super().__init__(routine, machine, call, answer, regions)
        self.fenced = fenced

    def lines(self):
        told = {"done": self.done, "noroom": self.no_room, "stuck": self.stuck}[self.answer.ending]()
        return [*told, f"  fenced: {self.compared()}"]

    def compared(self):
        """How the fenced run ended. Where that is no abort, both runs are proved to leave the same."""
        cause = self.fenced.answer.cause
        if cause is None:
            return "the same result"
        reason = self.fenced.reason(cause).replace("\n", " ")  # an expression may go over several lines
        return f"abort at {self.routine.check_span(cause).where()}: {reason}; {self.differences()}"

    def differences(self):
        """The words that are not as the fenced run left them. Those that it did not use are clear there."""
        left = dict(enumerate(value for value, _, _ in self.fenced.answer.words))
        differ = [(word, value) for word, (value,) in enumerate(self.answer.words) if value != left.get(word, 0)]
        told = [f"{self.word_name(word)} = {value} (fenced: {left.get(word, 'unused')})" for word, value in differ[:NAMED]]
        more = [f"{len(differ) - NAMED} more"] if len(differ) > NAMED else []
        return f"words that differ: {'; '.join(told + more)}" if differ else "no word differs"

    def word_name(self, word):
        return self.regions.word_name(word) or f"word {word}"

    @cached_property
    def asked_for(self):
        """As the fenced run tells it. Where that did not come so far, what the command's only malloc obtains in the longest memory, or else more
        than is left."""
        if self.fenced.answer.cause is None:
            return self.fenced.asked_for
        command, unused = self.answer.command, self.answer.unused
        (longer,) = self.machine.bare([replace(up_to(command, self.table, self.call), memory=LONGEST)])
        if self.failed_malloc(command) is not None and longer.unused > unused:
            return counted(longer.unused - unused, "word")
        return f"more than {counted(self.call.memory - unused, 'word')}"

    def stuck(self):
        """At which place, where that is sure, or else in which statement."""
        cause, places = self.place_lacking(), self.places()
        if cause is not None:
            told = self.stuck_at(cause)
        elif len(places) == 1 and self.table.nodes[places[0]][0] != COPY:
            told = [self.routine.node_spans[places[0]].shown(f"stuck: {self.routine.node_name(places[0])} is at word 0 or outside the memory")]
        else:
            what = "statement" if self.routine.is_c else "command"
            told = [self.routine.command_spans[self.answer.command].shown(f"stuck: this {what} reads or writes word 0, or outside the memory")]
        return [*told, f"  ending: {self.ending('stuck')}"]

    def stuck_at(self, cause):
        first, count = self.words_of(cause)
        past = counted(first + count - self.call.memory, "word")
        reason = f"is {past} past the end of the memory" if first else "is at word 0"
        return [
            self.routine.check_span(cause).shown(f"stuck: {self.routine.check_name(cause)} {reason}"),
            f"  wanted: {counted(count, 'word')} at {first}",
            f"  values: {', '.join(self.values(cause))}",
        ]

    def place_lacking(self):
        """The check by which the fenced run aborted, where it is sure that the bare run is stuck at the place of that. Words are read and copied
        as soon as their place is checked; a word is assigned after the value, in which the run may be stuck as well."""
        cause, places = self.fenced.answer.cause, self.places()
        assigned, _ = self.table.commands[self.answer.command]
        if cause.node not in places or (cause.node == assigned and len(places) > 1):
            return None
        first, count = self.words_of(cause)
        return cause if first == 0 or first + count > self.call.memory else None

    def words_of(self, cause):
        """The first word that is read or written at the place of a check, and how many are. Bare sums are modulo 2^32."""
        return cause.place % WORD, cause.words if self.table.nodes[cause.node][0] == COPY else 1

    def places(self):
        """The nodes of the command that ended the run by which words are read or written, but for variables, which every memory has."""
        table, command = self.table, self.answer.command
        nodes = table.nodes_of(command)
        used = {table.nodes[node][1] for node in nodes if table.nodes[node][0] == READ} | {table.commands[command][0]}
        return [node for node in nodes if table.nodes[node][0] == COPY or (node in used and table.nodes[node][0] != VARIABLE)]
