"""docs/TABLE.md against the proved machine and against the translation from C: its tables, its blocks, and the examples of nodes. The
refusals and the worked example have files of their own."""

import dataclasses
import re
import unittest
from collections import Counter

from pages import codes, count, numbers
from table_page import MACHINE, NO_COMMANDS, PAGE, WorkedExample, call_of, declared, first_line, not_clear, routine_of
from table_page import edition_rows, shared_call, shared_declarations, sharing_calls, sharing_rows, type_names
from workbench import text
from workbench.commands import STATUS
from workbench.machine import Call
from workbench.table import ADDRESS, CAST, COPY, DEREF, EDITIONS, FIELD, FIRST_POINTER, INT, KIND_NAMES, MALLOC, OPERANDS, PLACE, RECORD
from workbench.table import SECTIONS, SUM, VALUE, VARIABLE, VOID_POINTER, WORD, Spot, Table, spot

FENCED = [ending for ending in STATUS if ending != "stuck"]  # a bare run alone is stuck
# Every table of the page, by its heading and its columns, with its number of rows. Where rows are examples, each of them is run: a row that
# is no longer read, or a new one, fails here.
ROWS = {
    ("Memory", "Words | Use"): 4,
    ("Registers", "Words | Meaning"): 2,
    ("Registers", "Word | Value, base, end | "): 4,
    ("The six sections", "Section | Entries | At most | Words of an entry"): 6,
    ("The six sections", "Section | Place of its count | Place of the first word of entry i"): 6,
    ("Types and records", "Word | As a type | As a target"): 4,
    ("Nodes", "Kind | Name | a | b | Type"): 11,
    ("Nodes", "Kind | At run time"): 11,
    ("An example of each kind", "Kind | C | Nodes | Commands | Answer"): 16,
    ("Bounds", "Kind | Passes when | Place | Bounds of the place"): 3,
    ("Bounds", "Value | Its bounds"): 10,
    ("Examples of evaluation, bounds and allocation", "C | Nodes | Commands | Answer"): 7,
    ("Editions", " | Edition 1 | Edition 2"): 3,
    ("Editions", "An engineer wants | Edition"): 5,
    ("Editions", "Table | Answer | "): 4,
    ("Editions", "C | Nodes | Commands | Edition 1 | Edition 2"): 5,
    ("Endings", "Ending | When | Answered | The three lists"): 4,
    ("Why a run aborted", "Number | Meaning"): 6,
    ("Why a run aborted", "Commands | node, place, words, base, end, reason, first word"): 4,
    ("Refusals", "No. | Condition | Place | Table | Answer"): 24,
    ("Refusals", "Kind | Not allowed"): 6,
    ("Refusals", "No. | Condition | Place | Text | Answer"): 3,
    ("Refusals", "No. | Condition | Place | List | Answer"): 9,
    ("Order", "Table | Faults | Answer"): 9,
    ("The bench text", "Part | Limit"): 4,
    ("The bench text", "Text | Output"): 6,
    ("Worked example", "Command | Node | Words | Meaning"): 23,
}
# And every block that has no commands.
BLOCKS = {"Types and records": 1, "An example of each kind": 1, "The bench text": 1, "Worked example": 5}
LARGEST = sum(1 + section.most * len(section.words) for section in SECTIONS)  # words that the sections can have together


def worked_out(formula, values):
    """A sum of numbers and letters as the page writes it, such as 2 + R + 2i."""
    terms = [re.fullmatch(r"(\d*)([A-Za-z]?)", term).groups() for term in formula.replace(",", "").split(" + ")]
    return sum(int(factor or 1) * (values[letter] if letter else 1) for factor, letter in terms)


class Whole(unittest.TestCase):
    def test_every_table_is_known(self):
        self.assertEqual(sorted(ROWS.items()), sorted(((grid.heading, grid.columns), len(grid.rows)) for grid in PAGE.grids))

    def test_every_block_is_known(self):
        blocks = Counter(block.heading for block in PAGE.blocks if not (block.info or "").startswith("console"))
        self.assertEqual(BLOCKS, dict(blocks))

    def test_long_numbers(self):
        """Every number that is written with commas is one of the machine's own."""
        known = {RECORD, text.MEMORY, LARGEST, text.TABLE, WORD, WORD - 1, WORD // 4}
        self.assertEqual(known, set(map(count, re.findall(r"\d+(?:,\d{3})+", "\n".join(PAGE.lines)))))

    def test_contents(self):
        """Every link to a heading of the page leads to one."""
        headings = [re.match(r"#+ +(.*)", line)[1] for line in PAGE.lines if line.startswith("#")]
        anchors = {re.sub(r"[^\w -]", "", heading).lower().replace(" ", "-") for heading in headings}
        links = re.findall(r"\]\(#([^)]*)\)", "\n".join(PAGE.lines))
        self.assertGreaterEqual(len(links), 13)
        self.assertEqual([], [link for link in links if link not in anchors])


class MemoryAndRegisters(unittest.TestCase):
    def test_unit(self):
        size, words = PAGE.said(r"`(sizeof\(int\))` is 1, and `(malloc\(2\))` allocates two words")
        (answer,) = MACHINE.explain([call_of(routine_of("int n; int *q;", f"n = {size}", f"q = {words}"))])
        self.assertEqual(["1 1 0 0", "2 3 3 5"], not_clear(answer))

    def test_length(self):
        """With 3 variables: the shortest memory and the longest, and one word less and more."""
        (longest,) = PAGE.said(r"The length is from 1 \+ V to ([\d,]+) words")
        table, lengths = [0, 0, 0, 3, INT, INT, INT, *NO_COMMANDS], (4, count(longest), 3, count(longest) + 1)
        answers = MACHINE.explain([Call(table, length, [0, 0, 0]) for length in lengths])
        self.assertEqual(["done 4", "done 4", "refused 10 0", "refused 10 0"], list(map(first_line, answers)))

    def test_most_registers(self):
        """As many registers as there may be, of no words, and one more."""
        most = count(PAGE.rows("Registers", "Words | Meaning")[0][1])
        table = [0, 0, 0, most + 1, *[VOID_POINTER] * (most + 1), *NO_COMMANDS]
        lists = [[n, *(word for variable in range(n) for word in (variable, 0))] for n in (most, most + 1)]
        answers = MACHINE.explain([Call(table, 99, [0] * (most + 1), listed) for listed in lists])
        self.assertEqual([f"done {most + 2}", "refused 13 0"], list(map(first_line, answers)))

    def registers(self):
        """The page's declarations and its list."""
        calls, faults, listed = PAGE.said(r"With two variables, `([^`]*)` and `([^`]*)`, the list `([^`]*)` gives")
        return f"{calls}; {faults};", numbers(listed)

    def test_registers(self):
        declarations, listed = self.registers()
        (answer,) = MACHINE.explain([call_of(routine_of(declarations), registers=listed)])
        wanted = [(0, 0, 0)]
        for words, cell, _ in PAGE.rows("Registers", "Word | Value, base, end | "):
            first, told = len(wanted), tuple(int(number) for number in re.findall(r"\d+", cell))
            wanted += [(number, 0, 0) for number in told] if cell.endswith(", without bounds") else [told]
            ends = [int(number) for number in re.findall(r"\d+", words)]
            self.assertEqual([first, len(wanted) - 1], [ends[0], ends[-1]])
        self.assertEqual(wanted, answer.words)
        (unused,) = PAGE.said(r"and U starts at (\d+)\.")
        self.assertEqual(int(unused), answer.unused)

    def test_beyond_a_register(self):
        declarations, listed = self.registers()
        (beyond,) = PAGE.said(r"`([^`]*)` is a word of the register beside it, and an abort")
        (answer,) = MACHINE.explain([call_of(routine_of(declarations, f"{beyond} = 0"), registers=listed)])
        self.assertEqual("abort", answer.ending)
        self.assertEqual(answer.words[2][0], answer.cause.place)  # the first word of the other register


class Sections(unittest.TestCase):
    def test_limits(self):
        rows = PAGE.rows("The six sections", "Section | Entries | At most | Words of an entry")
        for section, (number, entries, most, words) in zip(SECTIONS, rows):
            with self.subTest(number):
                self.assertEqual((section.number, section.name, section.most), (int(number), entries.split()[0], count(most)))
                self.assertTrue(words.startswith(", ".join(section.words)))
                before = [0] * (section.number - 1)
                self.assertEqual(3, MACHINE.check([*before, count(most) + 1]).number)
                self.assertEqual(1, MACHINE.check([*before, count(most)]).number)

    def test_words_of_a_field(self):
        cell = PAGE.rows("The six sections", "Section | Entries | At most | Words of an entry")[1][3]
        least, most = map(count, re.search(r"\((\d+) to ([\d,]+)\)", cell).groups())
        answers = [MACHINE.check([1, 1, 1, INT, words, 0, 0, *NO_COMMANDS]) for words in (least, most, least - 1, most + 1)]
        self.assertEqual([None, None, "refused 4 4", "refused 4 4"], [answer and first_line(answer) for answer in answers])

    def test_smallest_and_largest(self):
        smallest, most = PAGE.said(r"The smallest table is `([^`]*)`; the largest has ([\d,]+) words")
        self.assertIsNone(MACHINE.check(numbers(smallest)))
        self.assertIsNotNone(MACHINE.check(numbers(smallest)[:-1]))
        self.assertEqual(count(most), LARGEST)
        self.assertEqual(len(Table(edition=2).head()) + LARGEST, text.TABLE)

    def test_places(self):
        """The place of every count and every entry of all examples, the smallest table and the worked example; in edition 2 two further on."""
        rows = PAGE.rows("The six sections", "Section | Place of its count | Place of the first word of entry i")
        for words in ([0] * 6, WorkedExample.of_page().call().table, *(call.table for call in sharing_calls())):
            table = Table.of(words)
            behind = dataclasses.replace(table, edition=2).words()
            counts = dict(zip("RFPVN", map(len, table.sections())))
            for section, (number, of_count, of_entry) in zip(SECTIONS, rows):
                self.assertEqual(section.number, int(number))
                at = worked_out(of_count, counts)
                self.assertEqual([Spot(section)] * 2, [spot(words, at), spot(behind, at + 2)])
                for i in range(len(getattr(table, section.name))):
                    at = worked_out(of_entry, {**counts, "i": i})
                    self.assertEqual([Spot(section, i, 0)] * 2, [spot(words, at), spot(behind, at + 2)])

    def test_types(self):
        rows = PAGE.rows("Types and records", "Word | As a type | As a target")
        self.assertEqual([INT, VOID_POINTER, FIRST_POINTER, RECORD], [worked_out(word, {"i": 0, "r": 0}) for word, *_ in rows])


class Records(unittest.TestCase):
    def test_records(self):
        (lines,) = PAGE.shown("Types and records")
        examples = [part.split("\n") for part in "\n".join(lines).split("\n\n")]
        self.assertEqual(2, len(examples))
        for example in examples:
            with self.subTest(example[0]):
                self.record(example)

    def record(self, lines):
        """A record's words against its C, and its offsets and its size as a run has them."""
        words, c, types = declared(lines)
        declarations = c + "".join(f" {type}v{word};" for word, type in types.items())
        routine = routine_of(declarations)
        self.assertEqual(words, routine.table.words()[: len(words)])
        self.assertEqual(types, type_names(routine, routine.table))
        told = [int(number) for number in re.findall(r"(?:offset|size) (\d+)", "\n".join(lines))]
        self.assertEqual(told, self.measured(declarations, c))

    def measured(self, declarations, c):
        """The offsets of a record's fields, from their addresses in a record that v2 points to, and its size."""
        (tag,), fields = re.findall(r"struct (\w+) {", c), re.findall(r"(\w+)(\[\d+\])?;", c)
        results = "".join(f" int o{i};" for i in range(len(fields)))
        addresses = [f"o{i} = (int){'' if array else '&'}v2->{name}" for i, (name, array) in enumerate(fields)]
        size = f"sizeof(struct {tag})"
        routine = routine_of(f"{declarations}{results} int size;", f"v2 = malloc({size})", *addresses, f"size = {size}")
        (answer,) = MACHINE.explain([call_of(routine)])
        values = {name: answer.words[1 + i][0] for i, name in enumerate(routine.names.variables)}
        return [*(values[f"o{i}"] - values["v2"] for i in range(len(fields))), values["size"]]


class Kinds(unittest.TestCase):
    OTHER_NAMES = {DEREF: "dereference", MALLOC: "allocation"}  # which the page has beside the workbench's

    def test_kinds(self):
        rows = PAGE.rows("Nodes", "Kind | Name | a | b | Type")
        self.assertEqual(list(KIND_NAMES), [int(row[0]) for row in rows])
        for kind, (_, name, a, b, _) in enumerate(rows, 1):
            with self.subTest(name):
                self.assertIn(name.split(" (")[0], (KIND_NAMES[kind], self.OTHER_NAMES.get(kind)))
                self.assertEqual(kind in (VARIABLE, DEREF, FIELD), name.endswith("(place)"))
                nodes = [letter for letter, cell in (("a", a), ("b", b)) if re.match("(value|place)", cell)]
                self.assertEqual("".join(name for name, role in zip("ab", OPERANDS[kind]) if role in (VALUE, PLACE)), "".join(nodes))
                self.assertEqual(kind not in (FIELD, SUM, CAST, COPY), b == "0")

    def test_run_time(self):
        rows = PAGE.rows("Nodes", "Kind | At run time")
        self.assertEqual(list(KIND_NAMES), [int(kind) for kind, _ in rows])

    def test_kinds_that_check(self):
        rows = PAGE.rows("Bounds", "Kind | Passes when | Place | Bounds of the place")
        self.assertEqual([DEREF, FIELD, COPY], [count(kind) for kind, *_ in rows])

    def test_steps_by_records(self):
        """A record back, and a number of records of four words that is a multiple of 2^32 words."""
        back, nothing = PAGE.said(r"([\d,]+) is one record back, and with records of four words ([\d,]+) moves by nothing")
        steps = ["p = malloc(8)", "p = p + 1", f"back = p + {count(back)}", f"same = p + {count(nothing)}"]
        routine = routine_of("struct r { int words[4]; }; struct r *p; struct r *back; struct r *same;", *steps)
        (answer,) = MACHINE.explain([call_of(routine)])
        self.assertEqual([8, 4, 8], [value for value, _, _ in answer.words[1:4]])

    def test_further_words_of_a_field(self):
        (place,) = PAGE.said(r"reached through its address: `([^`]*)` is a dereference of a sum of the address of a field")
        _, c, _ = shared_declarations()
        table = routine_of(c, f"{place} = 1").table
        node, kinds = table.commands[0][0], []
        while FIELD not in kinds:
            kind, node, _ = table.nodes[node]
            kinds.append(kind)
        self.assertEqual([DEREF, SUM, ADDRESS, FIELD], kinds)


class Nodes(unittest.TestCase):
    """The examples of each kind, and those of evaluation, bounds and allocation."""

    def test_runs(self):
        rows, calls = list(sharing_rows()), list(sharing_calls())
        self.assertEqual((16 + 7, 16 + 7), (len(rows), len(calls)))
        for (_, c, _, _, wanted), answer in zip(rows, MACHINE.explain(calls)):
            with self.subTest(c):
                self.assertEqual(wanted, [first_line(answer), *not_clear(answer)])

    def test_c(self):
        """The C of each, with the page's declarations, is translated into the page's nodes and commands. A copy has the last variable, n, in
        place of the one that C has no name for."""
        _, c, _ = shared_declarations()
        for kind, (commands, *others), nodes, pairs, _ in sharing_rows():
            with self.subTest(commands):
                table = routine_of(c.replace(" int n;", "") if kind == COPY else c, commands).table
                self.assertEqual(nodes, [" ".join(map(str, node)) for node in table.nodes])
                self.assertEqual(pairs, [" ".join(map(str, pair)) for pair in table.commands])
                self.assertEqual([], others)

    def test_kinds(self):
        """Each example of a kind has a node of it, and every kind has an example."""
        shown = [(kind, [int(node.split()[0]) for node in nodes]) for kind, _, nodes, _, _ in sharing_rows() if kind]
        self.assertEqual(list(KIND_NAMES), sorted({kind for kind, _ in shown}))
        self.assertEqual([], [kind for kind, kinds in shown if kind not in kinds])

    def test_declarations(self):
        """The words of the declarations are their C's, but for a pointer type that only commands use."""
        words, c, types = shared_declarations()
        routine, table = routine_of(c), Table.of(words + NO_COMMANDS)
        self.assertEqual(types, type_names(routine, table))
        met = routine.table.pointers
        self.assertEqual(table.pointers[: len(met)], met)
        self.assertEqual(dataclasses.replace(table, pointers=met), routine.table)
        told = PAGE.said(r"The variables are words (\d), (\d) and (\d), all inputs are 0, and the first block begins at word (\d)")
        self.assertEqual([1 + i for i in range(len(table.variables) + 1)], list(map(int, told)))


class Editions(unittest.TestCase):
    """The examples of the two editions."""

    def test_runs(self):
        for edition in EDITIONS:
            calls = [shared_call(nodes, commands, edition) for _, nodes, commands, *_ in edition_rows()]
            for (c, _, _, *wanted), answer in zip(edition_rows(), MACHINE.explain(calls)):
                with self.subTest(c, edition=edition):
                    self.assertEqual(wanted[edition - 1], [first_line(answer), *not_clear(answer)])

    def test_c(self):
        """The C is translated into the page's nodes and commands, and what it leaves differs."""
        _, c, _ = shared_declarations()
        for (commands,), nodes, pairs, *answers in edition_rows():
            with self.subTest(commands):
                table = routine_of(c, commands).table
                self.assertEqual(nodes, [" ".join(map(str, node)) for node in table.nodes])
                self.assertEqual(pairs, [" ".join(map(str, pair)) for pair in table.commands])
                self.assertNotEqual(*answers)


class Endings(unittest.TestCase):
    def test_endings(self):
        rows = PAGE.rows("Endings", "Ending | When | Answered | The three lists")
        self.assertEqual(FENCED, [code for row in rows for code in codes(row[0])])

    def test_first_lines(self):
        """The forms of an answer: its word, and as many numbers as all such answers on the page have."""
        (lines,) = PAGE.shown("The bench text")
        answers = re.findall(r"`((?:done|abort|noroom|refused) [\d ]+)`", "\n".join(PAGE.lines))
        self.assertEqual(FENCED, [line.split()[0] for line in lines])
        self.assertEqual(
            {(line.split()[0], len(line.split())) for line in lines}, {(line.split()[0], len(line.split())) for line in answers}
        )


if __name__ == "__main__":
    unittest.main()
