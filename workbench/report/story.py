"""A run in sentences: how it ended, for the telephone, and what each of its commands did."""

import re

from ..endings import NO_BOUNDS
from ..table import INT
from ..wording import counted, listed

NAMED = 6  # as many words are named in a sentence
RUN = 3  # as many in a row are told together
RESULTS = 3  # as many ints are told of a run that is done


class Story:
    """The sentences of a run that was begun."""

    def __init__(self, routine, call, answer, regions, ending):
        self.routine, self.call, self.answer, self.regions, self.ending = routine, call, answer, regions, ending
        self.count = len(routine.table.commands)

    def headline(self):
        return {"done": self.done, "abort": self.aborted, "noroom": self.no_room}[self.answer.ending]()

    def done(self):
        names, types = self.routine.names.own, self.routine.table.variables
        values = [f"{name} is {self.answer.words[1 + number][0]}" for number, name in enumerate(names) if types[number] == INT]
        told = f"; {listed(values)}" if 0 < len(values) <= RESULTS else ""
        carried = {0: "there is no command", 1: "the one command was carried out", 2: "both commands were carried out"}
        return f"Done: {carried.get(self.count, f'all {self.count} commands were carried out')}{told}."

    def place(self, command):
        """Where a command stands."""
        return f"line {self.routine.command_spans[command].line}" if self.routine.is_c else f"command {command}"

    def where(self):
        return f"{'in' if self.routine.is_c else 'at'} {self.place(self.answer.command)}"

    def aborted(self):
        cause = self.answer.cause
        name = plain(self.routine.check_name(cause))
        if cause.reason == NO_BOUNDS:
            pointer = self.ending.values(cause)[0]
            return f"Aborted {self.where()}: {name} follows a pointer without bounds ({pointer}), and nothing was touched through it."
        what = spoken(self.ending.wanted_name(cause))
        wanted = (
            f"{counted(cause.words, 'word')} at {cause.place} ({what})"
            if what
            else f"{counted(cause.words, 'word')} at {cause.place}, where no word is in use"
        )
        bounds = spoken(self.regions.stretch_name(cause.base, cause.end))
        missed = self.ending.missed(cause).replace("the base", "the start")
        return f"Aborted {self.where()}: {name} wanted {wanted}, {missed} of {bounds}; nothing outside its bounds was touched."

    def no_room(self):
        left = self.call.memory - self.answer.unused
        return (
            f"No room {self.where()}: {self.malloc()} asked for {self.ending.asked_for}, and {left} {'was' if left == 1 else 'were'} left."
        )

    def malloc(self):
        node = self.ending.failed_malloc(self.answer.command)
        return "malloc" if node is None else plain(self.routine.node_name(node))

    def command(self, number):
        """A command as it is written."""
        if self.routine.is_c:
            return " ".join(self.routine.command_spans[number].text.split())
        return self.routine.unparser.command(number).removesuffix(";")

    def step(self, step, regions, blocks):
        """What a step shows, with the regions of its memory and the blocks that its command obtained."""
        if step.command is None:
            return f"At the start, before any command. {self.start()}"
        ended = step.command == self.answer.command
        what = {"abort": "Aborted at", "noroom": "No room at"}[self.answer.ending] if ended else "After"
        line = f", {self.place(step.command)}" if self.routine.is_c else ""
        told = [f"{what} command {step.command} of {self.count}{line}: {self.command(step.command)}."]
        told += touched("Read", step.read, regions) + touched("Took the address of", step.addressed, regions)
        told += [f"Obtained {listed([sized(block) for block in blocks])}."] if blocks else []
        told += touched("Wrote", step.written, regions)
        told += [] if step.told else ["Which words it followed pointers to is not told: the table is too full for the question."]
        return " ".join(told + ([self.failure(step)] if ended else []))

    def start(self):
        registers = [sized(region) for region in self.regions.all if region.what == "register"]
        return f"Handed in: {listed(registers)}." if registers else "No register was handed in."

    def free(self, unused):
        """What is left of the memory at a step, by its first unused word."""
        left, last = self.call.memory - unused, self.call.memory - 1
        which = f"word {last}" if left == 1 else f"words {unused} to {last}"
        return f"Free: {which} ({left} of {self.call.memory})." if left else "Free: no word is left."

    def failure(self, step):
        """The end of a run within a command, in the words of its explanation. A copy that came before the failure has written."""
        told = self.facts()
        more = " more" if step.written else ""
        return " ".join(f"{name.capitalize()}: {text}." for name, text in told) + f" Nothing{more} was assigned."

    def facts(self):
        """What the explanation tells of an abort or no room, as pairs."""
        first, *lines = self.ending.lines()
        if self.answer.ending == "noroom":
            asked, left = re.search("asks for (.*), and (.*) (?:is|are) left", first).groups()
            return [("asked for", asked), ("left", left)]
        return [tuple(line.strip().split(": ", 1)) for line in lines if not line.startswith("  ending: ")]


def sized(region):
    """A region with its length."""
    return f"{region.title} ({counted(region.end - region.start, 'word')})"


def touched(verb, found, regions):
    """A sentence about words, each told once; many in a row, as a copy touches them, are told together."""
    runs = runs_of(dict.fromkeys(found), regions)
    named = [named_run(run, regions) for run in runs[:NAMED]]
    more = [f"{sum(map(len, runs[NAMED:]))} more"] if len(runs) > NAMED else []
    return [f"{verb} {listed(named + more)}."] if runs else []


def runs_of(words, regions):
    """Words in lists: those that follow each other in one region in one list, if they are many, and every other one by itself."""
    runs = []
    for word in words:
        if runs and runs[-1][-1] == word - 1 and regions.of(word) is regions.of(word - 1):
            runs[-1].append(word)
        else:
            runs.append([word])
    return [part for run in runs for part in ([run] if len(run) >= RUN else [[word] for word in run])]


def named_run(run, regions):
    if len(run) == 1:
        return f"word {run[0]} ({regions.word_name(run[0])})"
    return f"words {run[0]} to {run[-1]} ({regions.stretch_name(run[0], run[-1] + 1)})"


def spoken(name):
    """A word or a stretch by name as one says it: what is in it, then what it is in."""
    region, comma, part = (name or "").partition(", ")
    return f"{part} in {region}" if comma else region


def plain(name):
    """A node's name without quotes: as C writes it, or its number with that."""
    return re.sub(r"(node \d+), (.*),$", r"\1 (\2)", name.replace("`", ""))


def refusal_headline(answer, shown):
    """A refusal in one sentence: what its text says behind the number and the place."""
    said = re.search(r"refused \d+[^:\n]*: (.*)", shown.split("\n")[0])
    return f"Refused, and nothing was run: {said[1] if said else 'the call has a fault'} (refusal {answer.number} at place {answer.place})."
