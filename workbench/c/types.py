"""C's types, as far as the fragment has them. A word is the unit of size."""

from dataclasses import dataclass

from ..source import Span


@dataclass(frozen=True)
class Int:
    def __str__(self):
        return "int"

    size = 1


@dataclass(frozen=True)
class Void:
    def __str__(self):
        return "void"

    size = None


@dataclass(frozen=True)
class Pointer:
    target: object

    def __str__(self):
        star = "*" if isinstance(self.target, Pointer) else " *"
        return f"{self.target}{star}"

    size = 1


@dataclass(frozen=True)
class Array:
    element: object
    count: int

    def __str__(self):
        return f"{self.element}[{self.count}]"

    @property
    def size(self):
        return self.count * self.element.size


@dataclass(frozen=True)
class Member:
    """A field of a struct: an int, a pointer or an array of these."""

    name: str
    type: object
    span: Span


@dataclass(eq=False)
class Record:
    """A struct. `number` and `members` are None until its definition is met; `span` is where it is first mentioned."""

    tag: str
    span: Span
    number: int = None
    members: list = None

    def __str__(self):
        return f"struct {self.tag}"

    @property
    def size(self):
        return sum(member.type.size for member in self.members)


INT, VOID = Int(), Void()
VOID_POINTER = Pointer(VOID)


def element_of(type):
    """The type of one word of a field: of an array its element's."""
    return type.element if isinstance(type, Array) else type
