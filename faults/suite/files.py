"""The command faults/make: the suite's routines as files."""

import sys
from pathlib import Path

from . import origins, others

FOLDER = Path(__file__).resolve().parents[1] / "routines"


def pairs():
    """All pairs of the suite."""
    return origins.pairs() + others.pairs()


def path_of(routine):
    return FOLDER / f"{routine.name}.c"


def stale():
    """Files that are missing, that are not as the generator writes them, or that it does not write."""
    texts = {path_of(routine): routine.text() for pair in pairs() for routine in pair.routines()}
    there = {path: path.read_text() for path in FOLDER.glob("*.c")}
    return sorted(path for path in texts.keys() | there.keys() if texts.get(path) != there.get(path)), texts


def main(words):
    if words not in ([], ["--check"]):
        print("usage: faults/make [--check]", file=sys.stderr)
        return 64
    changed, texts = stale()
    for path in changed:
        print(f"{path.name} {'is not as faults/make writes it' if words else 'written' if path in texts else 'removed'}")
        if not words and path in texts:
            path.write_text(texts[path])
        elif not words:
            path.unlink()
    print(f"{len(texts)} routines, {len(texts) // 2} of them with a fault")
    return 1 if words and changed else 0
