"""Where a word of a text may be missing or too many. After a dropped word a table is read one word off, and the refusal comes far behind. Texts are
mostly written with whole entries on a line and each section at the start of one: the first line that breaks this shows where it went wrong."""

from .table import SECTIONS, head_length
from .wording import counted

NODE = 3  # words; nodes go over many lines


def suspect(text):
    """The section and the line where a word may be missing or too many; None where the lines of a text break nothing."""
    lines = [span.line for span in text.spans]
    starts = [at for at in range(len(lines)) if at == 0 or lines[at - 1] != lines[at]]
    at = head_length(text.words)
    if at not in starts:
        return None
    for section in SECTIONS:
        width = len(section.words)
        end = at + 1 + width * text.words[at]
        for start in starts:
            if at < start < end and (start - at - 1) % width:
                return section, lines[start - 1]  # an entry goes over the line's end: the line is short, or long
            if at + 1 < start < end and lines[start - 1] == lines[at] and width < NODE:
                return section, lines[at]  # so does a section that begins with entries beside its count, as short ones do
        if end >= len(lines):
            return None
        if end not in starts:
            return section, lines[end]  # the section ends within the line: that is long
        at = end
    return None


def hint(text, place):
    """A sentence on that line, if it does not come after the place at fault; else None. Two lines at least have to be well before it, lest a
    text that is broken into lines at will gets a hint."""
    found = suspect(text)
    if found is None or not text.spans[0].line + 2 <= found[1] <= text.span(place).line:
        return None
    section, line = found
    count = sum(span.line == line for span in text.spans)
    return f"line {line}, with {counted(count, 'number')}, may have one too few or too many, in section {section.number} ({section.name})"
