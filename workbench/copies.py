"""Which of its two checks a copy failed. The machine tells both by the copy's node."""

from dataclasses import replace

from .cuts import with_source
from .table import COPY, Table


def told_apart(machine, call, answer):
    """The answer with the operand that failed in its cause. Another run is asked: with a number for a source that is not the place wanted.
    Where the place is the same there, it was the first operand's; where it is that number, the first one has passed."""
    cause = answer.cause
    table = cause and Table.of(call.table)
    if cause is None or table.nodes[cause.node][0] != COPY:
        return answer
    other = with_source(table, cause.node, 0 if cause.place else 1)
    (asked,) = machine.explain([replace(call, table=other.words())])
    return replace(answer, cause=replace(cause, operand=int(asked.cause.place != cause.place)))
