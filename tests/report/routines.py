"""The routines whose pages are tested: some of routines/, and large ones that are made here."""

from support import ROOT

CARS = "cars=1,4,5,0,2,6,9,1,3,3,7,2,1,8,4,5,6,0,8,2,2,7,5,3"  # as in routines/twelve.registers
# File and options.
RUNS = {
    "snapshot": ("routines/snapshot.c",),
    "twelve": ("routines/twelve.c", "--register", CARS),
    "list": ("routines/list.c",),
    "noroom": ("routines/noroom.c", "--memory", "8", "--input", "floors=3"),
    "take": ("routines/take.c", "--register", "live=2,7,12,0"),
    "takeshort": ("routines/takeshort.c", "--register", "live=2,7,12,0"),
    "keep": ("routines/keep.c", "--edition", "2"),
}
REFUSED = ("routines/nocast.txt",)


def most_commands(folder):
    """256 commands, as many as a table has, beside a register that fills a memory of 4,096 words."""
    lines = ["int *calls;", "int a, b, c;", "void routine(void) {"]
    lines += [f"    {'abc'[number % 3]} = {number * 16777213 % 4294967296};" for number in range(256)]
    words = ",".join(str(1 + number * 7919 % 4294967291) for number in range(4096 - 5))
    return written(folder, "commands.c", lines), "--register", f"calls={words}"


def most_follows(folder):
    """As many stores through pointers as 512 nodes allow, all over a block of some 4,000 words, and pointers stored in it."""
    lines = ["int *block;", "int **row;", "void routine(void) {", "    block = malloc(4000);", "    row = (int **)block;"]
    lines += [f"    row[{number * 47}] = block + {3999 - number * 40};" for number in range(48)]
    return (written(folder, "follows.c", lines),)


def most_blocks(folder):
    """A list of 64 blocks, each of which points to the one before."""
    lines = ["struct call { int people[30]; struct call *next; };", "struct call *at, *first;", "void routine(void) {"]
    lines += ["    first = malloc(sizeof(struct call));\n    first->next = at;\n    at = first;"] * 39
    return (written(folder, "blocks.c", lines),)


def most_copies(folder):
    """A register of 2,000 words that is copied as a whole as often as 512 nodes allow, one word of it changed each time."""
    lines = ["struct calls { int floors[1999]; int last; };", "struct calls *live, *snapshot;", "void routine(void) {"]
    lines += ["    snapshot = malloc(sizeof(struct calls));"]
    lines += [f"    *snapshot = *live;\n    live->last = {number};" for number in range(50)]
    words = ",".join(str(1 + number * 7919) for number in range(2000))
    return written(folder, "copies.c", lines), "--memory", "5000", "--register", f"live={words}"


def written(folder, name, lines):
    path = folder / name
    path.write_text("\n".join([*lines, "}", ""]))
    return str(path.relative_to(ROOT))


LARGE = {"commands": most_commands, "follows": most_follows, "blocks": most_blocks, "copies": most_copies}
