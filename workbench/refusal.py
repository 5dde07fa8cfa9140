"""A refusal as it is printed: where it is, what is wrong there, what would fit."""

from .faults import FAULTS, Fault, table_fault
from .hint import hint
from .machine import LONGEST
from .table import spot
from .text import read_numbers
from .wording import counted

REGISTERS = 16  # the most that a call takes


def shown_refusal(routine, text, call, answer):
    """A refusal of a call. `routine` is None for a text whose table is refused, `text` for C."""
    number, place = answer.number, answer.place
    if number in FAULTS:
        fault, where, span = table_fault(call.table, number, place), str(spot(call.table, place)), table_span(routine, text, call, place)
    else:
        fault, where, at = CALL_FAULTS[number](routine, call, place)
        span = given_in(text, call, at) if text and at is not None else None
    head = f"refused {number}, place {place}: {fault.title}"
    name = (routine or text).source.name
    lines = [span.shown(head) if span else f"{name}: {head}", f"  where: {where}", f"  wrong: {fault.wrong}", f"  fits:  {fault.fits}"]
    told = hint(text, place) if text and number in FAULTS else None
    return "\n".join(lines + [f"  hint:  {told}"] * bool(told))


def table_span(routine, text, call, place):
    """Where a word of the table stands: in the text, or in C the node or command that it is of."""
    if text:
        return text.span(place)
    at = spot(call.table, place)
    spans = {"nodes": routine.node_spans, "commands": routine.command_spans}.get(at.section.name if at.section else None)
    return spans[at.entry] if spans and at.entry is not None else None


def given_in(text, call, at):
    """The number of a text that a call was refused for; None where an option gave another one."""
    numbers, spans = read_numbers(text.source)
    return spans[at] if numbers[at] == [call.memory, len(call.inputs), *call.inputs][at] else None


# Refusals of a call: what is wrong, where it is in words, and which number of a text has it.


def memory_refused(routine, call, place):
    least = 1 + len(routine.table.variables)
    wrong = f"the memory has {counted(call.memory, 'word')}, and the routine has {counted(least - 1, 'variable')}"
    return Fault("the memory is too short or too long", wrong, f"from {least} to {LONGEST} words"), "the memory's length", 0


def inputs_refused(routine, call, place):
    names, types = routine.names, routine.table.variables
    if len(call.inputs) != len(types):
        wrong = f"there are {counted(len(call.inputs), 'input')} and {counted(len(types), 'variable')}"
        return Fault("the count of inputs is wrong", wrong, f"{counted(len(types), 'input')}, one a variable"), "the count of inputs", 1
    wrong = f"{names.variables[place]} is a pointer, and its input is {call.inputs[place]}"
    return Fault("the input of a pointer is not 0", wrong, "0; a pointer is handed a register"), f"the input of variable {place}", 2 + place


def registers_refused(routine, call, place):
    wrong = f"there are {counted(call.registers[0], 'register')}"
    return Fault("the list of registers is wrong", wrong, f"at most {REGISTERS}"), f"the list of registers, place {place}", None


def room_refused(routine, call, place):
    """Which register does not fit, and what memory it takes."""
    first = 1 + len(routine.table.variables)
    at, unused = 1, first
    while at + 1 <= place:
        unused += call.registers[at + 1]
        variable, at = call.registers[at], at + 2 + call.registers[at + 1]
    name = routine.names.variables[variable]
    wrong = f"with the register of {name}, words up to {unused - 1} are needed, and the memory has {counted(call.memory, 'word')}"
    fits = f"a memory of {unused} words or more" if unused <= LONGEST else f"registers of at most {LONGEST - first} words together"
    return (
        Fault("the registers do not fit", wrong, fits),
        f"the list of registers, place {place}: the length of the register of {name}",
        None,
    )


CALL_FAULTS = {10: memory_refused, 11: inputs_refused, 13: registers_refused, 15: room_refused}
