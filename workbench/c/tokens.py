"""A C text in tokens with their places. pycparser parses; tokens are for telling where a thing stands, which it tells only roughly."""

import re
from dataclasses import dataclass

from ..errors import Faulty
from ..source import Span

COMMENT_OR_LITERAL = re.compile(r"/\*.*?\*/|//[^\n]*|\"(?:\\.|[^\"\\\n])*\"|'(?:\\.|[^'\\\n])*'", re.DOTALL)
TOKEN = re.compile(
    r"[A-Za-z_]\w*|\.?[0-9](?:[eEpP][+-]|[\w.])*|\"(?:\\.|[^\"\\\n])*\"|'(?:\\.|[^'\\\n])*'"
    r"|<<=|>>=|\.\.\.|->|\+\+|--|<<|>>|<=|>=|==|!=|&&|\|\||[-+*/%&|^]=|[^\s]"
)
JOINED = ("a backslash that joins lines", "write the line as one")


@dataclass(frozen=True)
class Token:
    text: str
    span: Span


def blanked(source):
    """The text with spaces for comments and #include lines, every other byte where it was. Other directives are refused, and so is a line that
    goes on after a backslash."""

    def without_comment(match):
        if match.group().startswith("//"):
            refuse(source, re.compile(r"\\[ \t\r]*\Z").search(source.text, match.start(), match.end()), *JOINED)
        return re.sub(r"[^\n]", " ", match.group()) if match.group().startswith("/") else match.group()

    text = COMMENT_OR_LITERAL.sub(without_comment, source.text)
    refuse(source, re.search(r"\\[ \t\r]*$", text, re.MULTILINE), *JOINED)
    refuse(source, re.search(r"/\*", text), "a comment without an end")
    text = re.sub(r"^[ \t]*#[ \t]*include\b[^\n]*", spaces_of, text, flags=re.MULTILINE)
    refuse(source, re.search(r"^[ \t]*(#[^\n]*)", text, re.MULTILINE), "a directive other than #include", "write out what it stands for")
    return re.sub(r"[\r\f\v]", " ", text)


def spaces_of(match):
    return " " * len(match.group())


def refuse(source, match, what, hint=None):
    """Refuses what was found, if it was."""
    if match:
        start = match.start(match.lastindex or 0)
        raise Faulty(Span(source, start, match.end()), f"{what} is not in the fragment", hint)


def tokens_of(source, text):
    """The tokens of a blanked text."""
    return [Token(match.group(), Span(source, match.start(), match.end())) for match in TOKEN.finditer(text)]
