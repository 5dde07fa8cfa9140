"""A run step by step, by runs alone. The state after a command is what the proved machine leaves when it runs the table without the later
commands. What a command follows is asked of it too: it explains an abort by the place wanted and the bounds, so each follow is made to fail
once, on purpose, and so is each struct of a copy. Nothing is worked out here but which word a number of an answer stands for."""

from dataclasses import dataclass, field, replace

from ..cuts import FAR, prefix, probe
from ..errors import Stop
from ..table import ADDRESS, COPY, DEREF, FIELD, MALLOC, READ, VARIABLE, WORD

BATCH = 1 << 21  # words of memory that the answers of one batch may have
CLEAR = (0, 0, 0)
FOLLOWS = {DEREF: (0,), FIELD: (0,), COPY: (0, 1)}  # the operands that a kind checks: 0 for a, 1 for b


@dataclass(frozen=True)
class Followed:
    """A check that was passed: its node and which operand of it was followed, the word it leads to and the bounds of the pointer."""

    node: int
    operand: int
    word: int
    base: int
    end: int


@dataclass
class Step:
    """The memory after a command, or at the start, where the command is None, and what the command did. Of the memory there are the words
    that are not as they were one step before, with value, base and end; before the start all are clear."""

    command: int
    unused: int
    changed: dict
    read: list = field(default_factory=list)  # words, in the order in which they were read
    addressed: list = field(default_factory=list)  # words whose address was taken
    written: list = field(default_factory=list)
    copied: list = field(default_factory=list)  # ranges of words: of each copy those that it read and those that it wrote
    followed: list = field(default_factory=list)
    told: bool = True  # False where the machine could not be asked what the command followed


def steps_of(routine, machine, call, answer):
    """The steps of a call that was answered, the start first. The last one has the memory that the call itself left."""
    table = routine.table
    count = len(table.commands) if answer.command is None else answer.command + 1
    steps = states(table, machine, call, answer, count)
    followed, untold = follows(table, machine, call, answer, count)
    for step in steps[1:]:
        step.told = step.command not in untold
        describe(step, table, followed, reached(table, answer, step.command), done=step.command != answer.command)
    return steps


def states(table, machine, call, answer, count):
    """The steps with their memory. The last run has to be the call's own: the commands cut off made no difference."""
    steps, before = [], []
    for number, after in enumerate(answers(machine, call, answer, (prefix(table, k)[0] for k in range(count + 1)))):
        before += [CLEAR] * (len(after.words) - len(before))
        changed = {word: new for word, (old, new) in enumerate(zip(before, after.words)) if old != new}
        steps.append(Step(number - 1 if number else None, after.unused, changed))
        before = after.words
    names = prefix(table, count)[1]
    told = replace(answer, cause=answer.cause and replace(answer.cause, operand=0))
    if replace(after, cause=after.cause and replace(after.cause, node=names[after.cause.node])) != told:
        raise Stop("mavis: the run of the last step is not the run itself")
    return steps


def answers(machine, call, answer, tables):
    """The machine's answers to a call with other tables, in batches: one, unless its memory would be too much to keep at a time."""
    calls = [replace(call, table=table.words()) for table in tables]
    size = max(1, BATCH // answer.unused)
    for at in range(0, len(calls), size):
        yield from machine.explain(calls[at : at + size])


def follows(table, machine, call, answer, count):
    """Every check that was passed, by its node and operand, and the commands of which that could not be asked. The one that ended the run was
    not passed; and the probe of one that the run did not come to ends elsewhere."""
    asked, untold = [], set()
    for command, node, operand in checks(table, answer, count):
        made = probe(table, node, command + 1, operand)
        if made is None:
            untold.add(command)
        else:
            asked.append((node, operand, *made))
    told = answers(machine, call, answer, (cut for _, _, cut, _ in asked))
    causes = [(node, operand, names, one.cause) for (node, operand, _, names), one in zip(asked, told) if one.cause]
    found = [passed(table, node, operand, cause) for node, operand, names, cause in causes if names[cause.node] == node]
    return {(one.node, one.operand): one for one in found}, untold


def checks(table, answer, count):
    """The checks of the first commands, each as its command, its node and an operand, but for the node that ended the run."""
    for command in range(count):
        for node in table.nodes_of(command):
            if not answer.cause or node != answer.cause.node:
                yield from ((command, node, operand) for operand in FOLLOWS.get(table.nodes[node][0], ()))


def passed(table, node, operand, cause):
    """From a probe's explanation to the word that the node leads to: the pointer's value is FAR back, and the field's offset is added."""
    kind, pointer, number = table.nodes[node]
    offset = table.offset(table.record_of(table.node_type(pointer)), number) if kind == FIELD else 0
    return Followed(node, operand, (cause.place - offset - FAR) % WORD + offset, cause.base, cause.end)


def reached(table, answer, command):
    """The nodes of a command that were worked out: all, or those before the check or the first malloc that can have ended the run."""
    nodes = table.nodes_of(command)
    if command != answer.command:
        return nodes
    ends = [n for n in nodes if (n == answer.cause.node if answer.cause else table.nodes[n][0] == MALLOC)]
    return nodes[: nodes.index(ends[0])]


def describe(step, table, followed, nodes, done):
    """What a command read, wrote and took addresses of: the words that its places are, of those nodes that were worked out. What a copy wrote
    is written even where the command fails after it."""
    place = table.commands[step.command][0]
    words = {node: 1 + table.nodes[node][1] for node in nodes if table.nodes[node][0] == VARIABLE}
    for node in table.nodes_of(step.command):
        kind, child, _ = table.nodes[node]
        here = [followed[node, operand] for operand in FOLLOWS.get(kind, ()) if (node, operand) in followed]
        step.followed += here
        if kind == COPY and len(here) == 2:
            size = table.record_size(table.record_of(table.node_type(child)))
            to, source = (range(one.word, one.word + size) for one in here)
            step.written += to
            step.read += source
            step.copied += [source, to]
        elif here:
            words[node] = here[0].word
        elif kind in (READ, ADDRESS) and child in words:
            (step.read if kind == READ else step.addressed).append(words[child])
    if done and place in words:
        step.written.append(words[place])
