"""The command tests/translation/planted-are-noticed.

Each file planted/*.edit has a mistake, in the form of the files must-fail/*.edit: a line file:, then pairs of lines old: and new:.
The old text must stand in the file once, so that an edit that has gone stale is seen.
"""

import argparse
import multiprocessing
import shutil
import tempfile
from pathlib import Path

import comparing
import routines
from comparing import ROOT

PLANTED = Path(__file__).resolve().parent / "planted"
BATCH = 50
SOUND = 400  # routines that a copy without a mistake must agree on


class Stale(Exception):
    pass


def apply(edit, root):
    """Makes the edit in the copy under root."""
    path = None
    old = None
    for line in edit.read_text().splitlines():
        word, _, rest = line.partition(": ")
        if word == "file":
            path = root / rest
            text = path.read_text()
        elif word == "old":
            old = rest
            if text.count(old) != 1:
                raise Stale(f"its old text stands {text.count(old)} times in {path.relative_to(root)}")
        elif word == "new":
            text = text.replace(old, rest)
            path.write_text(text)


def copied(folder):
    """A copy of the translator that uses the repository's own machine."""
    root = Path(folder)
    shutil.copytree(ROOT / "workbench", root / "workbench", ignore=shutil.ignore_patterns("__pycache__"))
    (root / "target").symlink_to(ROOT / "target")
    return root


def first_noticed(root, seed, count):
    """The number of the first routine that differs from the model, and how; None if there is none."""
    comparison = comparing.Comparison(root, seed, with_native=False)
    for first in range(0, count, BATCH):
        made = [routines.make(seed, number) for number in range(first, first + BATCH)]
        for number, lines in enumerate(comparison.differences(made, None), first):
            if lines:
                return number, lines[0].splitlines()[0]
    return None


def tried(task):
    """One edit, or None for a copy as it is. Answers its name, whether all is well, and a line about it."""
    edit, seed, count = task
    with tempfile.TemporaryDirectory() as folder:
        root = copied(folder)
        if edit is None:
            noticed = first_noticed(root, seed, SOUND)
            return "no mistake", noticed is None, f"{SOUND} routines agree" if noticed is None else f"routine {noticed[0]}: {noticed[1]}"
        try:
            apply(edit, root)
        except Stale as stale:
            return edit.stem, False, str(stale)
        noticed = first_noticed(root, seed, count)
    if noticed is None:
        return edit.stem, False, f"not noticed in {count} routines"
    return edit.stem, True, f"noticed by routine {noticed[0] + 1}: {noticed[1]}"


def main(words):
    parser = argparse.ArgumentParser(prog="tests/translation/planted-are-noticed", description=__doc__.splitlines()[0])
    parser.add_argument("--seed", type=int, default=1)
    parser.add_argument("--count", type=int, default=2000, help="routines that may be needed for one")
    parser.add_argument("--jobs", type=int, default=2, help="processes")
    parser.add_argument("names", nargs="*", help="of files in planted/; all of them if none is named")
    options = parser.parse_args(words)
    lacks = comparing.missing(with_native=False)
    if lacks:
        print(f"tests/translation/planted-are-noticed: missing: {lacks}")
        return 2
    edits = [PLANTED / f"{name}.edit" for name in options.names] or sorted(PLANTED.glob("*.edit"))
    comparing.build(ROOT)
    # A process for each, since a process imports the translator once.
    with multiprocessing.get_context("spawn").Pool(options.jobs, maxtasksperchild=1) as pool:
        results = []
        for name, well, line in pool.imap(tried, [(edit, options.seed, options.count) for edit in [None, *edits]], chunksize=1):
            print(f'{"ok  " if well else "FAIL"} {name}: {line}', flush=True)
            results.append(well)
    print(f"{sum(results[1:])} of {len(edits)} planted mistakes noticed")
    return 0 if all(results) else 1
