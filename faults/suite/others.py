"""The faults that are not made of an origin and a distance. Some of them the machine lets pass, and the endings that are expected say so."""

from .origins import CALLS, ORIGINS, PAIR, QUEUE, words
from .pairs import GREATEST, ROUND, TO_QUEUE, Pair, Setting

PASSES = ("done", "done")
CAR = ("car", "int floor", "int load")
SPARE = Setting((PAIR,), ("struct pair *spare",), ("spare = malloc(sizeof(struct pair));", "spare->first = 5;", "spare->second = 6;"))
SPARE_CAR = Setting((), ("struct car *spare",), ("spare = malloc(sizeof(struct car));", "spare->floor = 5;", "spare->load = 6;"))


def index_of_an_array():
    """The array is named in the statement itself, so that a compiler knows its length."""
    setting = ORIGINS[1].setting
    for access, form in (("read", "found = car->calls[{}];"), ("write", "car->calls[{}] = 9;")):
        yield Pair("index of an array", access, "before", setting, form.format(-1), form.format(0))
        yield Pair("index of an array", access, "past", setting, form.format(3), form.format(2))
        yield Pair("index of an array", access, "far", setting, form.format("far"), form.format("far"), TO_QUEUE, 1)


def cars():
    """Two cars in a row."""
    fields = [f"cars[{at // 2}].{'load' if at % 2 else 'floor'} = {at + 1};" for at in range(4)]
    return Setting((CAR,), ("struct car *cars",), ("cars = malloc(4);", *fields)) + SPARE_CAR


def row_of_records():
    """A step is a record: one car too far, at the word that is next to the row."""
    accesses = (("read", "found = cars[{}].{};"), ("write", "cars[{}].{} = 9;"), ("copy from", "*spare = cars[{}];"), ("copy to", "cars[{}] = *spare;"))
    for access, form in accesses:
        for distance, index, within, member in (("before", -1, 0, "load"), ("past", 2, 1, "floor")):
            yield Pair("row of records", access, distance, cars(), form.format(index, member), form.format(within, member))


def steps_that_wrap():
    """So many records that the step comes round to where it began: a fault in C, and no step at all for a processor or for the machine."""
    for access, form in (("read", "found = cars[far].load;"), ("write", "cars[far].load = 9;"), ("copy from", "*spare = cars[far];"), ("copy to", "cars[far] = *spare;")):
        yield Pair("step that wraps", access, "round", cars(), form, form, ROUND, 1, PASSES)


def larger_record():
    setting = Setting(
        (("small", "int first", "int second"), ("large", "int first", "int second", "int third")),
        ("struct small *small", "struct large *large", "struct small *less", "struct large *more"),
        (
            "small = malloc(sizeof(struct small));",
            "small->first = 1;",
            "small->second = 2;",
            "less = malloc(sizeof(struct small));",
            "more = malloc(sizeof(struct large));",
            "more->third = 3;",
            "large = (struct large *)small;",
        ),
    )
    for access, faulty, fine in (
        ("read", "found = large->third;", "found = large->second;"),
        ("write", "large->third = 9;", "large->second = 9;"),
        ("copy from", "*more = *large;", "*less = *small;"),
        ("copy to", "*large = *more;", "*small = *less;"),
    ):
        yield Pair("cast to a larger record", access, "past", setting, faulty, fine)


def differing(kind, access, distance, before, faulty, fine, after, statement, expected=("abort", "abort"), structs=Setting()):
    """A pair that differs in a statement before the one in which the fault shows."""
    settings = [structs + Setting(statements=(*before, *line, *after)) for line in (faulty, fine)]
    return Pair(kind, access, distance, settings[0], statement, statement, expected=expected, fine_setting=settings[1])


def blocks_too_short():
    """The size of the pointer for that of the record; and no words at all."""
    car = Setting((CAR,), ("struct car *car",)) + SPARE_CAR
    size = (("car = malloc(sizeof(car));",), ("car = malloc(sizeof(struct car));",))
    yield differing("block too short", "write", "past", (), *size, (), "car->load = 9;", structs=car)
    yield differing("block too short", "copy from", "past", (), *size, ("car->floor = 1;",), "*spare = *car;", structs=car)
    yield differing("block too short", "copy to", "past", (), *size, (), "*car = *spare;", structs=car)
    none = (("calls = malloc(0);",), ("calls = malloc(2);",))
    yield differing("block of no words", "write", "past", (), *none, (), "calls[0] = 9;")
    yield differing("block of no words", "copy to", "past", (), *none, (), "*(struct pair *)calls = *spare;", structs=SPARE)


def no_object():
    """Pointers that lead to nothing: 0, a number, and a word of a block that was never set."""
    block = ("calls = malloc(3);", *CALLS)
    accesses = (
        ("read", "found = calls[0];"),
        ("write", "calls[0] = 9;"),
        ("copy from", "*spare = *(struct pair *)calls;"),
        ("copy to", "*(struct pair *)calls = *spare;"),
    )
    for access, statement in accesses:
        yield differing("null pointer", access, "", (), ("calls = NULL;",), block, (), statement, structs=SPARE if "spare" in statement else Setting())
    for access, statement in accesses[:2]:
        yield differing("number as an address", access, "", (), ("calls = (int *)64;",), block, (), statement)
    lists = Setting(variables=("int **lists",))
    for access, statement in accesses[:2]:
        fine = ("lists[1] = malloc(3);", *words("lists[1]", (1, 2, 3)))
        yield differing("pointer never set", access, "", ("lists = malloc(2);",), (), fine, ("calls = lists[1];",), statement, structs=lists)


def int_over_a_pointer():
    """The number of another object's address is stored over a pointer as an int. Edition 2 moves that object's bounds with it."""
    for access, statement in (("read", "found = calls[0];"), ("write", "calls[0] = 9;")):
        first = ("calls = malloc(3);", *CALLS, *QUEUE)
        faulty, fine = ("*(int *)&calls = (int)queue;",), ("*(int *)&calls = (int)calls;",)
        yield differing("int over a pointer", access, "far", first, faulty, fine, (), statement, ("abort", "done"))


def what_the_machine_defines():
    """Faults of C that have a meaning on the machine: words that were never set are 0, sums wrap, and an assignment takes the words as they were."""
    yield differing("word never set", "read", "", ("calls = malloc(3);",), (), ("calls[1] = 2;",), (), "found = calls[1];", PASSES)
    yield differing("local variable never set", "read", "", (), ("int floor;",), ("int floor = 4;",), (), "found = floor;", PASSES)
    yield Pair("sum too large for an int", "sum", "", Setting(), "found = far + 1;", "found = far + 1;", GREATEST, 4, PASSES)
    four = Setting((PAIR,), (), ("calls = malloc(4);", *words("calls", (1, 2, 3, 4))))
    form = "*(struct pair *)(calls + {}) = *(struct pair *)calls;"
    yield Pair("overlapping assignment", "copy to", "", four, form.format(1), form.format(2), expected=PASSES)


def pairs():
    makers = (
        index_of_an_array,
        row_of_records,
        larger_record,
        blocks_too_short,
        no_object,
        int_over_a_pointer,
        steps_that_wrap,
        what_the_machine_defines,
    )
    return [pair for maker in makers for pair in maker()]
