"""The command line: `mavis COMMAND ..`, its help, and the exit status of what goes wrong."""

import argparse
import sys

from . import commands
from .errors import Stop, Usage

DESCRIPTION = "Runs short C routines on a proved machine that tracks the bounds of every pointer."
EXITS = """exit status:
  0  done, or the table passes     3  refused, or faulty C
  1  abort                         4  stuck, of a bare run
  2  no room                       64 bad use"""
# What each command does, and an example of it.
COMMANDS = {
    "run": (
        "run a routine: how it ends, why, and the memory by name",
        "mavis run routines/beyond.c --register calls=7,12,4 faults=21,1",
    ),
    "report": (
        "write a run as a page for the browser: its steps, and the memory at each of them",
        "mavis report routines/snapshot.c -o snapshot.html",
    ),
    "build": (
        "make the table of a routine in C, as a text of the bench program",
        "mavis build routines/noroom.c --memory 8 --input floors=3 -o noroom.txt",
    ),
    "check": (
        "check a table; a refusal is told in words",
        "mavis check routines/nocast.txt",
    ),
    "show": (
        "show a table as C, with its nodes",
        "mavis show routines/snapshot.txt",
    ),
}


class Parser(argparse.ArgumentParser):
    """Bad use is one line and a status of its own."""

    def __init__(self, **settings):
        super().__init__(allow_abbrev=False, formatter_class=argparse.RawDescriptionHelpFormatter, **settings)

    def error(self, message):
        raise Usage(f"{self.prog}: {message}; see {self.prog} --help")


def parser():
    whole = Parser(prog="mavis", description=DESCRIPTION, epilog=f"example:\n  {COMMANDS['run'][1]}\n\n{EXITS}")
    names = whole.add_subparsers(dest="command", metavar="COMMAND", required=True, parser_class=Parser)
    for name, (summary, example) in COMMANDS.items():
        one = names.add_parser(name, help=summary, description=summary, epilog=f"example:\n  {example}\n\n{EXITS}")
        one.set_defaults(act=getattr(commands, name))
        add_arguments(one, name)
    return whole


def add_arguments(one, name):
    """The arguments of a command."""
    one.add_argument("file", metavar="FILE", help="C (NAME.c)" if name == "build" else "C (NAME.c), or a text of the bench program")
    one.add_argument("--edition", metavar="N", help="the edition of the cast rule that C is built in, 1 or 2; 1 without it")
    if name in ("run", "report", "build"):
        one.add_argument("--memory", metavar="N", help="words of memory; 4096 for C, else as the text says")
        one.add_argument("--input", metavar="NAME=N", action="append", default=[], help="what the int NAME starts as; several can follow")
    if name in ("run", "report"):
        one.add_argument(
            "--register",
            metavar="NAME=N,N,..",
            action="append",
            default=[],
            help="words for the pointer NAME, or a file of them: NAME=@FILE; several can follow",
        )
    if name == "run":
        one.add_argument("--bare", action="store_true", help="run without bounds, as old controllers do, and compare with the fenced run")
        one.add_argument(
            "--raw",
            action="store_true",
            help="print what the bench program prints; with --bare address and value alone, of all words up to the last that is in use or not 0",
        )
    if name in ("report", "build"):
        one.add_argument("-o", metavar="FILE", dest="output", help="write to FILE")
    if name == "build":
        one.add_argument("--listing", action="store_true", help="the C line by line, with its nodes, instead of the text")


def spread(words):
    """`--input A=1 B=2` as `--input=A=1 --input=B=2`, so that a file's name can follow."""
    spread, option = [], None
    for word in words:
        if option and "=" in word and not word.startswith("-"):
            if spread[-1] == option:
                spread.pop()
            spread.append(f"{option}={word}")
            continue
        option = word if word in ("--input", "--register") else None
        spread.append(word)
    return spread


def main(words):
    """Carries out a command and gives its exit status."""
    sys.setrecursionlimit(10000)  # expressions may be nested deep
    try:
        options = parser().parse_args(spread(words))
        return options.act(options)
    except Stop as stop:
        print(stop, file=sys.stderr)
        return stop.status
    except BrokenPipeError:
        sys.stderr.close()  # whoever read the lines has seen enough
        return 0
