"""A fault and its twin, and the C text of both."""

from dataclasses import dataclass, field

MARK = "/* fault */"  # stands behind the statement with the fault, and behind the same statement of the twin

# What the caller hands in for the routine's parameter `far`. For the first two it looks where the routine puts its objects.
TO_QUEUE = "words from `calls` to `queue`"
TO_TOP = "words from `calls` to the last word of the address space"
ROUND = "records of two words in the whole address space"
GREATEST = "the greatest int"

# Registers: lists of the caller. Natively each is a block of its own, or all stand in one array of the caller's, side by side.
APART, IN_A_ROW = "apart", "in a row"
HALL, DOOR = (1, 2, 3), (7, 8)  # their words


@dataclass(frozen=True)
class Setting:
    """What stands around a faulty statement: structs and variables, and the statements that come first."""

    structs: tuple = ()
    variables: tuple = ()
    statements: tuple = ()
    registers: str = None

    def __add__(self, other):
        return Setting(
            self.structs + other.structs,
            self.variables + other.variables,
            self.statements + other.statements,
            self.registers or other.registers,
        )


@dataclass(frozen=True)
class Routine:
    """A routine of the suite. `endings` are those that the machine must come to in edition 1 and in edition 2."""

    name: str
    kind: str
    access: str
    distance: str
    setting: Setting
    statement: str
    far: object  # one of the four above, or a number
    endings: tuple
    is_fault: bool

    def text(self):
        structs = [f"struct {tag} {{\n" + "".join(f"    {member};\n" for member in members) + "};\n" for tag, *members in self.setting.structs]
        variables = [f"{variable};\n" for variable in (*self.setting.variables, "int *calls", "int *queue", "int found")]
        body = [*self.setting.statements, f"{self.statement} {MARK if self.is_fault else '/* no fault */'}"]
        routine = ["void routine(int far) {\n", *(f"    {line}\n" for line in body), "}\n"]
        return "".join([self.head(), *structs, "\n" if structs else "", *variables, "\n", *routine])

    def head(self):
        """The remark at the top: the kind, and what is expected."""
        told = {"kind": self.kind, "access": self.access, "distance": self.distance, "far": self.far}
        if self.setting.registers:
            told["registers"] = f"hall and door, natively {self.setting.registers}"
        told["expected"] = f"{self.endings[0]} in edition 1, {self.endings[1]} in edition 2"
        lines = [self.name if self.is_fault else f"{self.name}, without the fault"]
        return "/* " + "\n   ".join(lines + [f"{key}: {value}" for key, value in told.items() if value]) + " */\n"


@dataclass(frozen=True)
class Pair:
    """A fault and its twin, which differ in one statement or in what is handed in."""

    kind: str
    access: str
    distance: str
    setting: Setting
    faulty: str
    fine: str
    far: object = 0
    fine_far: object = 0
    expected: tuple = ("abort", "abort")
    fine_expected: tuple = ("done", "done")
    fine_setting: Setting = field(default=None)  # where the fault shows in a statement but stands in an earlier one

    @property
    def name(self):
        return "-".join(" ".join((self.kind, self.access, self.distance)).split())

    def routines(self):
        """The fault, then the twin."""
        common = (self.kind, self.access, self.distance)
        return (
            Routine(self.name, *common, self.setting, self.faulty, self.far, self.expected, True),
            Routine(self.name + "-twin", *common, self.fine_setting or self.setting, self.fine, self.fine_far, self.fine_expected, False),
        )
