"""The commands of `mavis`: from options to lines and an exit status."""

from .arguments import edition, inputs_of, memory_length, read_file, registers_of
from .bare import bare_lines
from .copies import told_apart
from .endings import Ending
from .errors import REFUSED, Faulty, Usage
from .listing import listing
from .machine import Call, Machine
from .memory import memory_lines
from .refusal import shown_refusal
from .regions import Regions
from .report.page import refused_page, run_page
from .routine import routine_of_text
from .show import shown_table
from .source import Source
from .text import MEMORY, bench_text, read_text
from .translate import translate

STATUS = {"done": 0, "abort": 1, "noroom": 2, "refused": REFUSED, "stuck": 4}


def run(options):
    """Runs a routine and tells how it ended and what it left."""
    machine = Machine()
    try:
        routine, text, call = prepared(options, machine)
    except Faulty:
        if not options.raw or is_c(options.file):
            raise
        print("input")
        return REFUSED
    (answer,) = machine.bare([call]) if options.bare else machine.explain([call])
    if options.raw:
        print("\n".join(raw_lines(answer)))
    elif answer.ending == "refused":
        print(shown_refusal(routine, text, call, answer))
    else:
        print("\n".join((bare_lines if options.bare else fenced_lines)(routine, machine, call, answer)))
    return STATUS[answer.ending]


def fenced_lines(routine, machine, call, answer):
    """The answer of a run with bounds, in lines."""
    answer = told_apart(machine, call, answer)
    regions = Regions(routine, machine, call, answer)
    return Ending(routine, machine, call, answer, regions).lines() + memory_lines(regions, routine)


def is_c(path):
    return path.endswith(".c")


def routine_of_c(options):
    """The routine of a file of C, in the edition asked for."""
    return translate(options.file, read_file(options.file), edition(options.edition))


def text_of(options, limited=True):
    """The bench text of a file."""
    if options.edition is not None:
        raise Usage(f"mavis: --edition is for C; {options.file} is a table, whose words tell its edition")
    return read_text(Source(options.file, read_file(options.file, "latin-1")), limited)


def prepared(options, machine):
    """The routine of a file, its text if it is a bench text, and the call that the options ask for. A bench text whose table is refused has no
    routine, and its call takes no names."""
    if is_c(options.file):
        routine, text = routine_of_c(options), None
    else:
        text = text_of(options, limited=options.memory is None)
        if machine.check(text.words) is not None:
            return None, text, Call(text.words, text.memory, text.inputs)
        routine = routine_of_text(text)
    memory = memory_length(options.memory) if options.memory else text.memory if text else MEMORY
    inputs = inputs_of(routine, options.input, text and text.inputs)
    return routine, text, Call(routine.table.words(), memory, inputs, registers_of(routine, options.register))


def report(options):
    """Writes the page of a run."""
    machine = Machine()
    routine, text, call = prepared(options, machine)
    (answer,) = machine.explain([call])
    if answer.ending == "refused":
        page = refused_page(routine, text, call, answer, shown_refusal(routine, text, call, answer))
    else:
        page = run_page(routine, machine, call, told_apart(machine, call, answer))
    write(options.output, page)
    return STATUS[answer.ending]


def raw_lines(answer):
    """What the bench program prints; of a bare run the same without bounds."""
    numbers = (answer.command, answer.unused, answer.number, answer.place)
    lines = [" ".join([answer.ending, *(str(number) for number in numbers if number is not None)])]
    return lines + [" ".join(map(str, [at, *word])) for at, word in enumerate(answer.words) if at]


def check(options):
    """Checks a table."""
    routine, refusal = checked(options)
    if routine is None:
        print(refusal)
        return REFUSED
    table = routine.table
    told = f"edition {table.edition}, " if table.is_marked else ""
    print(f"{options.file}: passes: {told}{len(table.variables)} variables, {len(table.nodes)} nodes, {len(table.commands)} commands")
    return 0


def show(options):
    """Shows a table as C with its nodes."""
    routine, refusal = checked(options)
    if routine is None:
        print(refusal)
        return REFUSED
    print("\n".join(shown_table(routine)))
    return 0


def checked(options):
    """The routine of a file, or None and the refusal of its table in words."""
    routine = text = None
    if is_c(options.file):
        routine = routine_of_c(options)
        words = routine.table.words()
    else:
        text = text_of(options)
        words = text.words
    answer = Machine().check(words)
    if answer is not None:
        return None, shown_refusal(routine, text, Call(words, 0, []), answer)
    return routine or routine_of_text(text), None


def build(options):
    """Makes the text of a routine in C, or its listing."""
    if not is_c(options.file):
        raise Usage(f"mavis build: {options.file}: a file NAME.c is wanted")
    routine = routine_of_c(options)
    memory = memory_length(options.memory, MEMORY) if options.memory else MEMORY
    inputs = inputs_of(routine, options.input)
    lines = listing(routine) if options.listing else bench_text(routine.table, memory, inputs)
    write(options.output, "".join(line + "\n" for line in lines))
    return 0


def write(path, text):
    """Writes to a file, or to standard output where none is named."""
    if path is None:
        print(text, end="")
        return
    try:
        with open(path, "w", encoding="utf-8") as file:
            file.write(text)
    except OSError as error:
        raise Usage(f"mavis: {path}: {error.strerror}") from None
