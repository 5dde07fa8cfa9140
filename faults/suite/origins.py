"""The faults that are made of an access, an origin and a distance: how `calls` is come by, what is done through it, and how far off."""

from dataclasses import dataclass

from .pairs import APART, IN_A_ROW, TO_QUEUE, TO_TOP, Pair, Setting

PAIR = ("pair", "int first", "int second")
ONE = ("one", "int word")


@dataclass(frozen=True)
class Origin:
    """How `calls` is come by. It may go from index `first` to index `last`; `false_alarm` says in which editions it can't be followed at all."""

    kind: str
    setting: Setting
    first: int = 0
    last: int = 2
    false_alarm: tuple = (False, False)

    @property
    def words(self):
        return self.last - self.first + 1


def words(pointer, numbers):
    """Statements that set the words at a pointer."""
    return tuple(f"{pointer}[{at}] = {number};" for at, number in enumerate(numbers))


CALLS, QUEUE = words("calls", (1, 2, 3)), ("queue = malloc(2);", *words("queue", (7, 8)))
TWO_VARIABLES = ("calls = &hall;", "queue = &door;")
REGISTERS = (("int *hall", "int *door"), ("calls = hall;", "queue = door;"))

ORIGINS = (
    Origin("block", Setting(statements=("calls = malloc(3);", *CALLS, *QUEUE))),
    Origin(
        "field in a record",
        Setting(
            structs=(("car", "int floor", "int calls[3]", "int *next"),),
            variables=("struct car *car",),
            statements=("car = malloc(sizeof(struct car));", "calls = car->calls;", *CALLS, *QUEUE, "car->floor = 4;", "car->next = queue;"),
        ),
    ),
    Origin(
        "variable",
        Setting(variables=("int floor", "int hall", "int door"), statements=("floor = 4;", "hall = 1;", "door = 7;", *TWO_VARIABLES)),
        last=0,
    ),
    Origin("local variable", Setting(statements=("int floor = 4;", "int hall = 1;", "int door = 7;", *TWO_VARIABLES)), last=0),
    Origin("register", Setting((), *REGISTERS, APART)),
    Origin("register in a row", Setting((), *REGISTERS, IN_A_ROW)),
    Origin(
        "interior pointer",
        Setting(
            variables=("int *list",),
            statements=("list = malloc(5);", *words("list", (4, 5, 1, 2, 3)), *QUEUE, "calls = &list[2];"),
        ),
        first=-2,
    ),
    Origin(
        "read back from memory",
        Setting(variables=("int **lists",), statements=("lists = malloc(2);", "lists[1] = malloc(3);", "calls = lists[1];", *CALLS, *QUEUE)),
    ),
    Origin(
        "cast through int",
        Setting(
            variables=("int *list", "int number"),
            statements=("list = malloc(3);", *words("list", (1, 2, 3)), *QUEUE, "number = (int)list;", "calls = (int *)number;"),
        ),
        false_alarm=(True, False),
    ),
    Origin(
        "cast between records",
        Setting(
            structs=(("door", "int state", "int faults[4]"), ("car", "int floor", "int calls[3]", "int load")),
            variables=("struct door *door", "struct car *car"),
            statements=(
                "door = malloc(sizeof(struct door));",
                "door->state = 4;",
                *words("door->faults", (1, 2, 3, 5)),
                *QUEUE,
                "car = (struct car *)door;",
                "calls = car->calls;",
            ),
        ),
    ),
    Origin("stepped past and back", Setting(statements=("calls = malloc(3);", *CALLS, *QUEUE, "calls = calls + 9;", "calls = calls - 9;"))),
)


def stepped(index):
    """`calls` moved by an index, which is a number or a name."""
    if isinstance(index, str):
        return f"calls + {index}"
    return "calls" if index == 0 else f"calls + {index}" if index > 0 else f"calls - {-index}"


@dataclass(frozen=True)
class Access:
    """What is done through `calls` at an index: a word, or a record from the index on."""

    name: str
    form: str
    is_copy: bool = False

    def record(self, origin):
        return PAIR if origin.words > 1 else ONE

    def size(self, origin):
        return len(self.record(origin)) - 1 if self.is_copy else 1

    def setting(self, origin):
        """What an access needs beside the origin: for a copy the record at its other side."""
        if not self.is_copy:
            return Setting()
        tag, *members = self.record(origin)
        set_words = [f"spare->{member.split()[1]} = {at};" for at, member in enumerate(members, 5)]
        return Setting(((tag, *members),), (f"struct {tag} *spare",), (f"spare = malloc(sizeof(struct {tag}));", *set_words))

    def at(self, origin, index):
        if self.is_copy:
            return self.form.format(f"*(struct {self.record(origin)[0]} *)({stepped(index)})".replace("(calls)", "calls"))
        return self.form.format(f"calls[{index}]")


ACCESSES = (
    Access("read", "found = {};"),
    Access("write", "{} = 9;"),
    Access("copy from", "*spare = {};", True),
    Access("copy to", "{} = *spare;", True),
)


def pairs_of(origin, access):
    """The four distances: one word before, one word past, far away in another object, and at the top, where place and words together wrap."""
    first, last = origin.first, origin.last + 1 - access.size(origin)  # where an access is within
    setting = origin.setting + access.setting(origin)
    endings = tuple("abort" if alarm else "done" for alarm in origin.false_alarm)
    by_input = access.at(origin, "far")
    for distance, faulty, fine, far, fine_far in (
        ("before", access.at(origin, first - 1), access.at(origin, first), 0, 0),
        ("past", access.at(origin, last + 1), access.at(origin, last), 0, 0),
        ("far", by_input, by_input, TO_QUEUE, first),
        ("top", by_input, by_input, TO_TOP, last),
    ):
        yield Pair(origin.kind, access.name, distance, setting, faulty, fine, far, fine_far, fine_expected=endings)


def pairs():
    return [pair for origin in ORIGINS for access in ACCESSES for pair in pairs_of(origin, access)]
