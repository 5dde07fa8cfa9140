"""Memory after a run as lines: every word with its name and value; a pointer, and an int that has bounds, with what it leads to and these. Words
of a bare run have no bounds."""

from .table import INT
from .wording import counted

FOLDED = 4  # as many clear words in a row are one line


def memory_lines(regions, routine):
    """All regions, each under its heading."""
    lines = []
    for heading, members in grouped(regions, routine):
        rows = [row for region in members for row in region_rows(regions, region)]
        lines += ["", heading, *aligned(rows)]
    return lines


def grouped(regions, routine):
    """Headings with their regions: all variables under one."""
    variables = [region for region in regions.all if region.what == "variable"]
    if variables:
        yield "variables", variables
    for region in regions.all[len(variables) :]:
        length = region.end - region.start
        unit = "" if region.unit is None else f" of {regions.names.type(regions.table, region.unit)}"
        by = "" if region.command is None else f", {routine.obtained_by(region.command)}"
        yield f"{region.title}: {counted(length, 'word')}{unit}{by}", [region]


def region_rows(regions, region):
    """The words of a region as rows of address, name, value and note; clear words in a row are folded."""
    rows, run = [], []
    for word in range(region.start, region.end):
        if not any(regions.words[word]):
            run.append(word)
            continue
        rows += clear_rows(regions, region, run) + [word_row(regions, region, word)]
        run = []
    return rows + clear_rows(regions, region, run)


def clear_rows(regions, region, run):
    if len(run) < FOLDED:
        return [word_row(regions, region, word) for word in run]
    first, last = run[0], run[-1]
    return [(f"{first}..{last}", f"{regions.at(region, first)[0]} .. {regions.at(region, last)[0]}", "0", "")]


def word_row(regions, region, word):
    name, type, _ = regions.at(region, word)
    value, *bounds = regions.words[word]
    told = note(regions, type, value, *bounds) if bounds else bare_note(regions, type, value)
    return str(word), name or region.name, str(value), told


def leads(regions, type, end):
    """Whether a word leads to a place: one of pointer type does, and one with bounds; of an int these have to be its own."""
    if type == INT:
        return bool(end) and regions.table.ints_have_bounds
    return type is not None or bool(end)


def note(regions, type, value, base, end):
    """What a word's value means: where it leads, and its bounds."""
    bounds = f"bounds [{base}, {end}): {regions.stretch_name(base, end)}" if end else ""
    if not leads(regions, type, end):
        return bounds and f"an int over {bounds}"
    if not end:
        return "null" if value == 0 else "no bounds"
    outside = "" if base <= value < end else "outside its "
    return f"-> {regions.word_name(value, type) or 'no word in use'}, {outside}{bounds}"


def bare_note(regions, type, value):
    """What stands at the word that a pointer's value is the number of."""
    if type in (None, INT):
        return ""
    return f"-> {regions.word_name(value, type) or 'no word in use'}" if value else "null"


def aligned(rows):
    """Rows in columns."""
    widths = [max((len(row[column]) for row in rows), default=0) for column in range(3)]
    return [f"  {a:>{widths[0]}}  {n:<{widths[1]}} = {v:<{widths[2]}}  {w}".rstrip() for a, n, v, w in rows]
