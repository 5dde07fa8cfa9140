"""The page of a run: one file with the source, the memory at each step, and the ending in a sentence."""

import html
import json
from pathlib import Path
from string import Template

from ..endings import Ending
from .pagesource import c_source, table_source, text_source
from .picture import ALL_SHOWN, Picture
from ..regions import Regions
from ..wording import counted, listed
from .steps import steps_of
from .story import Story, refusal_headline, spoken

PAGE = Path(__file__).resolve().parent


def run_page(routine, machine, call, answer):
    """The page of a run that was begun."""
    regions = Regions(routine, machine, call, answer)
    ending = Ending(routine, machine, call, answer, regions)
    story = Story(routine, call, answer, regions, ending)
    steps = steps_of(routine, machine, call, answer)
    picture = Picture(routine, regions, steps)
    data = {
        "groups": [group.data(rows) for group, rows in zip(picture.groups, picture.rows(wanted_words(answer)))],
        "steps": [step_data(*one, picture, story, routine) for one in zip(steps, picture.changes())],
        "failure": failure(answer, story),
    }
    return page(
        routine.source.name,
        answer.ending,
        story.headline(),
        c_source(routine, answer) if routine.is_c else table_source(routine, answer),
        "\n".join(ending.lines()),
        handed_in(routine, call),
        data,
        "a pointer, or from an int with bounds," if routine.table.ints_have_bounds else "a pointer",
    )


def wanted_words(answer):
    """The words that a failed check wanted, as far as they are in use; bounds that it missed have rows of their own."""
    cause = answer.cause
    if cause is None:
        return ()
    words = range(cause.place, min(cause.place + cause.words, answer.unused))
    shown = words if len(words) <= ALL_SHOWN else (words[0], words[-1])
    return {*shown, *((cause.base, cause.end - 1) if cause.end else ())}


def step_data(step, changed, picture, story, routine):
    """A step as the page looks it up."""
    here = picture.at_step(step)
    blocks = [region for region in here.all if region.what == "block" and step.command is not None and region.command == step.command]
    return {
        "command": step.command,
        "unused": step.unused,
        "says": story.step(step, here, blocks),
        "free": story.free(step.unused),
        "words": changed,
        "read": stretches(step.read),
        "address": stretches(step.addressed),
        "written": stretches(step.written),
        "obtained": [block.start for block in blocks],
        "bounds": [list(bounds) for bounds in bounds_of(step, here, story, routine)],
    }


def stretches(words):
    """Words as first and last of each stretch in which they follow each other: a copy has many."""
    found = []
    for word in words:
        if found and found[-1][1] == word - 1:
            found[-1][1] = word
        else:
            found.append([word, word])
    return found


def bounds_of(step, regions, story, routine):
    """The bounds that a step is about, with a sentence: those of the pointers that its command followed or failed to, or else of the one that
    it wrote."""
    told = {}
    for one in step.followed:
        told.setdefault((one.base, one.end, "Followed"), []).append(pointer_text(routine, one))
    cause = story.answer.cause
    if cause and cause.end and step.command == story.answer.command:
        told.setdefault((cause.base, cause.end, "Not followed:"), []).append(pointer_text(routine, cause))
    for word, (_, base, end) in step.changed.items() if not told else ():
        if end and word in step.written:
            told[base, end, "Stored in"] = [spoken(regions.word_name(word)).removeprefix("variable ")]
    for (base, end, verb), pointers in told.items():
        yield base, end, f"{verb} {listed(list(dict.fromkeys(pointers)))}, bounds [{base}, {end}): {regions.stretch_name(base, end)}."


def pointer_text(routine, followed):
    """The pointer that a check goes by."""
    return routine.unparser.text(routine.pointer(followed))


def failure(answer, story):
    """What ended the run within a command, for the last step."""
    if answer.ending == "done":
        return None
    cause = answer.cause
    wanted = {"place": cause.place, "words": cause.words} if cause else None
    return {"facts": story.facts(), "wanted": wanted}


def handed_in(routine, call):
    """What the run was called with, as pairs of words and text; and the edition of the table, unless it is 1."""
    told = [("Memory", counted(call.memory, "word"))]
    if routine is None:
        return told
    if routine.table.is_marked:
        told.insert(0, ("Edition", str(routine.table.edition)))
    names = routine.names.variables
    inputs = [f"{name} = {value}" for name, value in zip(names, call.inputs) if value]
    at = 1
    for _ in range(call.registers[0]):
        variable, length = call.registers[at : at + 2]
        told.append((f"Register {names[variable]}", counted(length, "word")))
        at += 2 + length
    return told + [("Inputs", ", ".join(inputs) or "all 0")]


def refused_page(routine, text, call, answer, shown):
    """The page of a call that was refused: why, and the source."""
    source = text.source if text else routine.source
    return page(source.name, answer.ending, refusal_headline(answer, shown), text_source(source), shown, handed_in(routine, call))


EXPLANATION = """<section class="explanation" aria-labelledby="explanation-heading">
<h2 id="explanation-heading">Explanation</h2>
<pre id="explanation">{}</pre>
</section>
"""


def page(name, ending, headline, source, explanation, handed, data=None, leading=""):
    """The page put together: nothing in it comes from elsewhere. It is plain ASCII, so that no encoding spoils it. `leading` is what arrows lead
    from."""
    explained = EXPLANATION.format(html.escape(explanation))
    word = {"done": "Done", "abort": "Abort", "noroom": "No room", "refused": "Refused"}
    parts = {
        "name": html.escape(name),
        "file": html.escape(Path(name).name),
        "ending": ending,
        "word": word[ending],
        "headline": html.escape(headline),
        "listing": source.heading,
        "numbering": source.numbering,
        "source": source.items,
        "early": "" if data else explained,  # a refusal has nothing else to show
        "late": explained if data else "",
        "handed": "".join(f"<div><dt>{html.escape(term)}</dt><dd>{html.escape(text)}</dd></div>" for term, text in handed),
        "steps": "" if data else "hidden",
        "leading": leading,
        # `<` is written as its number, so that nothing in the data can end the element that it stands in.
        "data": json.dumps(data, separators=(",", ":")).replace("<", "\\u003c"),
        "style": (PAGE / "page.css").read_text(),
        "script": (PAGE / "page.js").read_text(),
    }
    text = Template((PAGE / "page.html").read_text()).substitute(parts)
    return text.encode("ascii", "xmlcharrefreplace").decode("ascii")
