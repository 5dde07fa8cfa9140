"""C with tokens dropped, doubled, swapped and replaced at random: it is translated to a table that passes the check, or refused at a place of the
text; nothing else happens. What is translated is C for gcc too, where gcc is there."""

import random
import shutil
import subprocess
import tempfile
import unittest
from pathlib import Path

from support import MACHINE, ROOT, Faulty, routine, translate

from workbench.c.tokens import TOKEN, blanked
from workbench.source import Source

COUNT = 3000
OTHERS = [
    "*",
    "&",
    "(",
    ")",
    "[",
    "]",
    "->",
    ".",
    "+",
    "-",
    "++",
    "=",
    "+=",
    ";",
    ",",
    "{",
    "}",
    "int",
    "struct",
    "void",
    "sizeof",
    "malloc",
]
OTHERS += [
    "0",
    "1",
    "4294967295u",
    "n",
    "p",
    "q",
    "at",
    "v",
    "next",
    "people",
    "queue",
    "if",
    "return",
    "~",
    "?",
    ":",
    "char",
    "NULL",
    '"',
    "'",
]
WHOLE = routine(
    "p = malloc(sizeof(struct calls));\nq = p->queue;\nq[1] = n + 3;\n*(q + 1) += 2;\nat = (struct call *)malloc(sizeof *at + 2);\n"
    "at->next = at;\n*at->next = at[0];\n*p = *(struct calls *)q;\nat->floors[1] = &(*at).people;\nr = at->next->floors;\n**r = -1;\nv = (void *)&p;\nn = (int)v - 4;\nint k = 0, *j = &k;"
)
ACCEPTED = ("-m32", "-w", "-fsyntax-only", "-fmax-errors=1", "-x", "c")


def damaged(rng, text):
    """The text with one to three of its tokens changed."""
    tokens = TOKEN.findall(blanked(Source("whole.c", text)))
    for _ in range(rng.randint(1, 3)):
        at = rng.randrange(len(tokens))
        change = rng.randrange(4)
        if change == 0:
            del tokens[at]
        elif change == 1:
            tokens.insert(at, tokens[at])
        elif change == 2:
            other = rng.randrange(len(tokens))
            tokens[at], tokens[other] = tokens[other], tokens[at]
        else:
            tokens[at] = rng.choice(OTHERS)
    return " ".join(tokens)


class Damaged(unittest.TestCase):
    @classmethod
    def setUpClass(cls):
        rng = random.Random(17)
        texts = [WHOLE] + [path.read_text() for path in sorted(ROOT.glob("routines/*.c"))]
        cls.texts = [damaged(rng, rng.choice(texts)) for _ in range(COUNT)]
        cls.translated = {}
        for text in cls.texts:
            try:
                cls.translated[text] = translate("damaged.c", text)
            except Faulty as fault:
                assert str(fault).startswith("damaged.c:"), fault
                assert 0 <= fault.span.start <= len(text), fault

    def test_some_are_refused_and_some_are_not(self):
        self.assertGreater(len(self.translated), COUNT // 50)
        self.assertGreater(len(self.texts) - len(self.translated), COUNT // 2)

    def test_tables_pass_the_check(self):
        lines = [
            f"1 0 0 0 0 0 0 0 {len(words)} {' '.join(map(str, words))}"
            for words in (made.table.words() for made in self.translated.values())
        ]
        for text, answer in zip(self.translated, MACHINE.ask(lines)):
            self.assertEqual(answer, "pass", text)

    @unittest.skipUnless(shutil.which("gcc"), "gcc is missing")
    def test_gcc_takes_what_is_translated(self):
        with tempfile.TemporaryDirectory() as folder:
            for text in list(self.translated)[:150]:
                path = Path(folder, "damaged.c")
                path.write_text("#include <stdlib.h>\n#include <stdint.h>\n" + text)
                done = subprocess.run(["gcc", *ACCEPTED, path], capture_output=True, text=True)
                self.assertEqual(done.returncode, 0, done.stderr + text)


if __name__ == "__main__":
    unittest.main()
