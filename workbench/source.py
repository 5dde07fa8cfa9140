"""A file's text, and stretches of it that messages point at."""

from dataclasses import dataclass

SHOWN = 140  # as many characters of a line are shown


@dataclass(frozen=True)
class Source:
    """A named text. Lines and columns are counted from 1."""

    name: str
    text: str

    def line(self, number):
        """A line, tabs as single spaces, so that columns and carets agree."""
        lines = self.text.split("\n")
        return lines[number - 1].replace("\t", " ").rstrip("\r") if number <= len(lines) else ""


@dataclass(frozen=True)
class Span:
    """From byte `start` to before byte `end` of a source."""

    source: Source
    start: int
    end: int

    @property
    def line(self):
        return self.source.text.count("\n", 0, self.start) + 1

    @property
    def column(self):
        return self.start - (self.source.text.rfind("\n", 0, self.start) + 1) + 1

    @property
    def text(self):
        return self.source.text[self.start : self.end]

    def to(self, other):
        """From the start of this one to the end of the other."""
        return Span(self.source, self.start, other.end)

    def where(self):
        return f"{self.source.name}:{self.line}:{self.column}"

    def pointed(self):
        """The source line, and under it a caret and tildes below the stretch. Of a long line the part around the caret."""
        line, column = self.source.line(self.line), self.column
        if len(line) > SHOWN:
            cut = max(0, min(column - SHOWN // 2, len(line) - SHOWN))
            line, column = line[cut : cut + SHOWN], column - cut
        width = max(1, min(self.end - self.start, len(line) - column + 1))
        number = f"{self.line:5}"
        marks = " " * (column - 1) + "^" + "~" * (width - 1)
        return f"{number} | {line}\n{' ' * len(number)} | {marks}"

    def shown(self, message):
        """As compilers print it: where, what, the line, the caret."""
        return f"{self.where()}: {message}\n{self.pointed()}"
