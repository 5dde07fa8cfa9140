"""Holds what the C compiler and the machine have at the end of a routine against the model."""

from model import UNKNOWN, WRAP, Address


def layout(routine, numbers):
    """The machine's address of each object, and the first word that is not in use: variables, with one for assignments of whole records, then
    registers and blocks."""
    memory = routine.memory
    starts = {id(variable): 1 + numbers[variable] for variable in memory.variables}
    unused = 1 + len(memory.variables) + (routine.copied is not None)
    for object in memory.registers + memory.blocks:
        starts[id(object)] = unused
        unused += len(object.values)
    return starts, unused


def number_of(value, starts, unit):
    """The number that a word should have; an address is that of its object and unit for each word."""
    if isinstance(value, Address):
        return (starts[id(value.object)] + unit * value.offset) % WRAP
    return value


def against_native(routine, objects):
    """What differs, in words for people; objects are pairs of address and words."""
    expected = routine.memory.objects()
    lengths = [len(words) for _, words in objects]
    if [len(object.values) for object in expected] != lengths:
        return [f"native has objects of {lengths} words, the model of {[len(object.values) for object in expected]}"]
    starts = {id(object): start for object, (start, _) in zip(expected, objects)}
    differences = []
    for place, (object, (_, words)) in enumerate(zip(expected, objects)):
        for offset, value in enumerate(object.values):
            wanted = number_of(value, starts, 4)
            if value is not UNKNOWN and words[offset] != wanted:
                differences.append(f"{told(routine, place, offset)}: native has {words[offset]}, the model {wanted}")
    return differences


def against_machine(routine, starts, unused, answer):
    """What differs. The machine has bounds too, and these are compared even where the number is unknown."""
    if answer.ending == "refused":
        return [f"the machine refused the table: {answer.number} at {answer.place}"]
    wanted = ("abort", routine.commands) if routine.astray else ("done", None)
    if (answer.ending, answer.command) != wanted:
        return [f"the machine ended with {answer.ending} at command {answer.command}, the model with {wanted[0]} at {wanted[1]}"]
    if answer.unused != unused:
        return [f"the machine has words up to {answer.unused}, the model up to {unused}"]
    differences = []
    copied = answer.words[1 + len(routine.memory.variables)] if routine.copied is not None else None
    if copied not in (None, (routine.copied, 0, 0)):
        differences.append(f"the words copied: the machine has {copied}, the model {routine.copied}")
    for place, object in enumerate(routine.memory.objects()):
        for offset, (value, bounds) in enumerate(zip(object.values, object.bounds)):
            has = answer.words[starts[id(object)] + offset]
            wanted = has[0] if value is UNKNOWN else number_of(value, starts, 1)
            low, high = (starts[id(bounds.object)] + end for end in bounds[1:]) if bounds else (0, 0)
            if tuple(has) != (wanted, low, high):
                differences.append(f"{told(routine, place, offset)}: the machine has {has}, the model {(wanted, low, high)}")
    return differences


def between_editions(answer, other):
    """What differs between a routine's answer and that in the other edition. One that is done there too leaves the same values; it may abort
    there, but it asks for no other memory."""
    if answer.ending != "done" or other.ending == "abort":
        return []
    if other.ending != "done":
        return [f"the machine ended with {other.ending} in the other edition"]
    values = [[value for value, _, _ in each.words] for each in (answer, other)]
    return [] if values[0] == values[1] else ["the machine leaves other values in the other edition"]


def told(routine, place, offset):
    """A word, by a name for people."""
    memory = routine.memory
    if place < len(memory.variables):
        return memory.variables[place].name
    place -= len(memory.variables)
    if place < len(memory.registers):
        return f"register {place}, word {offset}"
    return f"block {place - len(memory.registers)}, word {offset}"


def compared(routine):
    """How many ints and how many addresses are compared; a number made from an address is not."""
    values = [value for object in routine.memory.objects() for value in object.values if value is not UNKNOWN]
    addresses = sum(isinstance(value, Address) for value in values)
    return len(values) - addresses, addresses
