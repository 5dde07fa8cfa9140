"""The source of a routine as list items of the page, with its commands marked out."""

import html
from dataclasses import dataclass


@dataclass(frozen=True)
class Listing:
    """What the page lists as the source: its heading, how its items are numbered (`lines` from 1, `commands` from 0), and the items."""

    heading: str
    numbering: str
    items: str


def c_source(routine, answer):
    """C line by line. Each stretch of a command has the command's number; the expression that failed has a mark of its own."""
    marks = [(span, f'data-command="{number}"') for number, span in enumerate(routine.command_spans)]
    if answer.cause:
        marks.append((routine.check_span(answer.cause), 'class="failed"'))
    items, at = [], 0
    for line in routine.source.text.rstrip("\n").split("\n"):
        items.append(item(marked(line.rstrip("\r"), at, marks)))
        at += len(line) + 1
    return Listing("Source", "lines", "\n".join(items))


def item(text):
    return f"<li><code>{text}</code></li>"


def marked(line, start, marks):
    """A line with an element for each stretch of it that has marks."""
    inside = [(max(span.start, start) - start, min(span.end, start + len(line)) - start, name) for span, name in marks]
    inside = [one for one in inside if one[0] < one[1]]
    edges = sorted({0, len(line), *(edge for one in inside for edge in one[:2])})
    parts = []
    for first, after in zip(edges, edges[1:]):
        text = html.escape(line[first:after])
        names = " ".join(name for begin, end, name in inside if begin <= first and after <= end)
        parts.append(f"<span {names}>{text}</span>" if names else text)
    return "".join(parts)


def table_source(routine, answer):
    """The commands of a table as C would write them, each with its nodes."""
    table, unparser = routine.table, routine.unparser
    items = []
    for number in range(len(table.commands)):
        nodes = []
        for node in table.nodes_of(number):
            numbers = " ".join(map(str, table.nodes[node]))
            failed = ' class="failed"' if answer.cause and node == answer.cause.node else ""
            nodes.append(f"<li{failed}><b>{node}</b> <span>{numbers}</span> <code>{html.escape(unparser.text(node))}</code></li>")
        command = f'<code><span data-command="{number}">{html.escape(unparser.command(number))}</span></code>'
        items.append(f'<li value="{number}">{command}<ul class="nodes" aria-label="nodes of command {number}">{"".join(nodes)}</ul></li>')
    return Listing("Commands of the table, with their nodes", "commands", "\n".join(items))


def text_source(source):
    """A text of numbers line by line."""
    items = [item(html.escape(line.rstrip("\r"))) for line in source.text.rstrip("\n").split("\n")]
    return Listing("Source", "lines", "\n".join(items))
