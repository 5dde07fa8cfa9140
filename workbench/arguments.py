"""What a command line hands to a run: numbers, the edition, inputs and registers by name."""

import re

from .errors import Faulty, Usage
from .machine import LONGEST
from .source import Source
from .table import EDITIONS, INT, WORD
from .text import read_numbers
from .wording import listed


def read_file(path, encoding="utf-8"):
    """A file's text. Bytes that are no text are kept apart from all others."""
    try:
        with open(path, encoding=encoding, errors="replace", newline="") as file:
            return file.read()
    except OSError as error:
        raise Usage(f"mavis: {path}: {error.strerror}") from None


def number(text, what):
    """A word: a decimal or hexadecimal number below 2^32, or a negative one down to -2^31."""
    if not re.fullmatch(r"-?[0-9]+|0[xX][0-9a-fA-F]+", text):
        raise Usage(f"mavis: {what}: {text!r} is no number")
    value = int(text, 16 if text[:2].lower() == "0x" else 10)
    if not -WORD // 2 <= value < WORD:
        raise Usage(f"mavis: {what}: {text} is not below 2^32 = {WORD}")
    return value % WORD


def memory_length(text, most=LONGEST):
    value = number(text, "--memory")
    if value > most:
        raise Usage(f"mavis: --memory: {text} is more than {most} words")
    return value


def edition(text):
    """The edition that C is built in: 1 where none is asked for."""
    value = number(text, "--edition") if text is not None else 1
    if value not in EDITIONS:
        raise Usage(f"mavis: --edition: there is no edition {text}; there are {listed([str(one) for one in EDITIONS])}")
    return value


def named(routine, pair, option):
    """The number of the variable in NAME=.., and what follows the equals sign."""
    name, equals, rest = pair.partition("=")
    if not equals:
        raise Usage(f"mavis: {option} takes NAME=.., not {pair!r}")
    own = routine.names.own
    if name not in own:
        raise Usage(f"mavis: {option}: there is no variable {name}; there are: {', '.join(own) or 'none'}")
    return own.index(name), rest


def inputs_of(routine, pairs, inputs=None):
    """The list of inputs: 0 for every variable, or those given, with the named ones put in."""
    inputs = list(inputs) if inputs is not None else [0] * len(routine.table.variables)
    for pair in pairs:
        variable, rest = named(routine, pair, "--input")
        if routine.table.variables[variable] != INT:
            raise Usage(f"mavis: --input: {pair.partition('=')[0]} is a pointer, which starts as 0 or is handed a register")
        if variable >= len(inputs):
            raise Usage(f"mavis: --input: the text has only {len(inputs)} inputs")
        inputs[variable] = number(rest, f"--input {pair.partition('=')[0]}")
    return inputs


def registers_of(routine, pairs):
    """The register list: its count, then of each register the variable, the length and the words."""
    words, seen = [len(pairs)], set()
    for pair in pairs:
        variable, rest = named(routine, pair, "--register")
        name = pair.partition("=")[0]
        if routine.table.variables[variable] == INT:
            raise Usage(f"mavis: --register: {name} is an int; a register is handed to a pointer")
        if variable in seen:
            raise Usage(f"mavis: --register: {name} is handed two registers")
        seen.add(variable)
        content = register_words(rest, name)
        words += [variable, len(content), *content]
    return words


def register_words(text, name):
    """The words of one register: numbers between commas, or a file of numbers."""
    if not text.startswith("@"):
        return [number(part.strip(), f"--register {name}") for part in text.split(",")] if text.strip() else []
    source = Source(text[1:], read_file(text[1:], "latin-1").replace(",", " ").replace("\r\n", " \n"))
    try:
        return read_numbers(source)[0]
    except Faulty as fault:
        raise Usage(f"mavis: {fault.span.where()}: {fault.message}") from None
