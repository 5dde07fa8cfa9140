"""Parsing by pycparser."""

import re

from ..errors import Faulty, Usage
from ..source import Span
from .tokens import blanked, tokens_of

# Type names that stand for int, which pycparser has to know before it meets them.
INT_NAMES = ("uint32_t", "int32_t")
PRELUDE = "".join(f"typedef int {name};" for name in INT_NAMES) + '\n#line 1 "C"\n'


def module():
    """pycparser's parser, or how to get it."""
    try:
        from pycparser import c_parser
    except ImportError:
        raise Usage("mavis: C is parsed by pycparser, which is missing: apt-get install python3-pycparser") from None
    return c_parser


def parse(source):
    """The declarations and the function of a C text, as pycparser's tree, and the tokens."""
    c_parser = module()
    text = blanked(source)
    parser = c_parser.CParser()
    try:
        tree = parser.parse(PRELUDE + text, "C")
    except c_parser.ParseError as error:
        raise unparsable(source, str(error), parser) from None
    except RecursionError:
        raise Faulty(Span(source, 0, 1), "this is nested too deep to be parsed") from None
    except Exception:  # the parser trips over some texts that are no C
        raise unparsable(source, "C: it can't be read from here on", parser) from None
    return tree.ext[len(INT_NAMES) :], tokens_of(source, text)


def unparsable(source, message, parser):
    """pycparser's message, where it stands."""
    where = re.match(r".*?:(\d+):(\d+): (.*)", message)
    line, column, what = (int(where[1]), int(where[2]), where[3]) if where else (*stopped_at(parser), message.partition(": ")[2])
    if line is None:
        end = len(source.text.rstrip())
        return Faulty(Span(source, end, end + 1), "this is not C: the text ends too soon")
    start = sum(len(line) + 1 for line in source.text.split("\n")[: line - 1]) + column - 1
    what = re.sub(r"^before: (.*)", r"it can't be read from `\1` on", what)
    return Faulty(Span(source, start, start + 1), f"this is not C: {what[:1].lower()}{what[1:]}")


def stopped_at(parser):
    """Where a parser stopped whose message does not say so, as far as it knows: version 3 has the next token."""
    try:
        token = parser._peek()
        return token.lineno, token.column
    except Exception:
        return None, None
