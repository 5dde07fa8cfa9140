"""What the tests of pages share."""

import os
import re
import subprocess
import sys
from functools import cache
from pathlib import Path

ROOT = Path(__file__).resolve().parent.parent.parent
PICTURES = ROOT / "target/report"
sys.path.insert(0, str(ROOT))
sys.setrecursionlimit(10000)

from workbench.names import COPIED  # noqa: E402
from workbench.translate import translate  # noqa: E402

PICTURES.mkdir(parents=True, exist_ok=True)
ROW = re.compile(r" +(\d+)(?:\.\.(\d+))?  (.*?) += (\d+)(?:  +(.*))?")


@cache
def mavis(*arguments):
    """Runs the command, once however often it is asked: exit status, standard output, standard error."""
    done = subprocess.run([sys.executable, str(ROOT / "mavis"), *arguments], cwd=ROOT, capture_output=True, env={**os.environ})
    return done.returncode, done.stdout.decode(), done.stderr.decode()


def made_page(name, options):
    """The page of a run, and the exit status."""
    path = PICTURES / f"{name}.html"
    status, output, error = mavis("report", *options, "-o", str(path))
    assert (output, error) == ("", ""), error
    return path, status


def run_cut(options, count):
    """What `mavis run` prints of the routine in C cut after its first statements. Lines stay where they are, and so do words: where no struct
    assignment is left, a variable of another name stands for theirs."""
    path = ROOT / options[0]
    text = path.read_text()
    whole = translate(path.name, text)
    for span in whole.command_spans[count:]:
        end = text.index(";", span.end) + 1
        text = text[: span.start] + re.sub(r"[^\n]", " ", text[span.start : end]) + text[end:]
    if translate(path.name, text).names.variables != whole.names.variables:
        text += "int words_copied;\n"
    cut = PICTURES / f"cut-{count}-{path.name}"
    cut.write_text(text)
    return mavis("run", str(cut), *options[1:])[1].replace("words_copied", COPIED)


def memory_of(output):
    """The memory that `mavis run` printed: headings, each with its rows of first word, last word, name, value and note."""
    groups = []
    for part in output.split("\n\n")[1:]:
        heading, *lines = part.rstrip("\n").split("\n")
        found = [ROW.fullmatch(line).groups() for line in lines]
        groups.append((heading, [(int(a), int(b or a), name, value, note or "") for a, b, name, value, note in found]))
    return groups


def by_word(groups):
    """Rows word by word: value, and of a row of one word its name and note."""
    words = {}
    for _, rows in groups:
        for first, last, name, value, note in rows:
            for word in range(first, last + 1):
                words[word] = (value, name, note) if first == last else (value, None, None)
    return words
