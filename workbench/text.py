"""Bench texts: decimal numbers with the memory's length, the inputs and the table."""

import re
from dataclasses import dataclass

from .errors import Faulty
from .source import Source, Span
from .table import WORD

MEMORY, INPUTS, TABLE = 4096, 64, 2472  # the bench program's limits


@dataclass
class Text:
    """What a bench text asks for, with the stretch of text of each word of the table."""

    source: Source
    memory: int
    inputs: list
    words: list
    spans: list

    def span(self, place):
        """Where a word of the table stands; past its end, the end of the text."""
        if place < len(self.spans):
            return self.spans[place]
        end = self.spans[-1].end if self.spans else len(self.source.text.rstrip(" \n"))
        return Span(self.source, end, end + 1)


def read_numbers(source):
    """Every number of a text, with its stretch. Only digits, spaces and line ends are allowed, and numbers below 2^32."""
    stray = re.search(r"[^0-9 \n]+", source.text)
    if stray:
        shown = stray.group().split()[0] if stray.group().split() else "white space"
        raise Faulty(Span(source, stray.start(), stray.end()), f"{shown!r}: only digits, spaces and line ends belong here")
    numbers, spans = [], []
    for match in re.finditer(r"[0-9]+", source.text):
        span = Span(source, match.start(), match.end())
        digits = match.group().lstrip("0") or "0"
        if len(digits) > 10 or int(digits) >= WORD:
            raise Faulty(span, "a number is below 4294967296")
        numbers.append(int(digits))
        spans.append(span)
    return numbers, spans


def read_text(source, limited=True):
    """A bench text in its parts. One that the bench program answers by `input` is faulty; unlimited, its memory may be of any length."""
    numbers, spans = read_numbers(source)
    end = Span(source, len(source.text.rstrip(" \n")), len(source.text))
    for at, name in enumerate(("the memory's length", "the count of inputs")):
        if len(numbers) <= at:
            raise Faulty(end, f"{name} is missing")
    if limited and numbers[0] > MEMORY:
        raise Faulty(spans[0], f"the memory's length is at most {MEMORY} here", "--memory takes up to 65536")
    if numbers[1] > INPUTS:
        raise Faulty(spans[1], f"the count of inputs is at most {INPUTS}")
    first = 2 + numbers[1]
    if len(numbers) < first:
        raise Faulty(end, f"{first - len(numbers)} of the {numbers[1]} inputs are missing")
    if len(numbers) - first > TABLE:
        raise Faulty(spans[first + TABLE], f"the table has {len(numbers) - first} words, and {TABLE} is the most")
    return Text(source, numbers[0], numbers[2:first], numbers[first:], spans[first:])


def bench_text(table, memory, inputs):
    """A table as lines that the bench program takes: memory, inputs, the mark with the edition, sections 1 to 4, the nodes of each command, the
    commands."""
    lines = [[memory], [len(inputs), *inputs]] + [table.head()] * table.is_marked
    for entries in table.sections()[:4]:
        lines.append([len(entries), *(word for entry in entries for word in entry)])
    lines.append([len(table.nodes)])
    for command in range(len(table.commands)):
        lines.append([word for node in table.nodes_of(command) for word in table.nodes[node]])
    lines.append([len(table.commands), *(node for command in table.commands for node in command)])
    return [" ".join(map(str, line)) for line in lines]
