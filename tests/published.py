"""The proved programs print what the documents print.

The case files begin with the published figures (second/samples/published.py); the gate runs the proved programs on those files and compares what they
write with the stored answers, and here the stored answers are held to the printed digits.
"""

import sys

from second.cases.modules import MODULES
from second.cases.words import pack
from second.model.terms import Fails, Refusal
from second.samples import published
from tests.common import root

LISTS = {"verdict": published.VERDICTS, "figures": published.FIGURES, "counts": published.COUNTS}


def answer_of(line):
    """A stored line read back: a refusal, low and high, the counts, or the verdict."""
    words = line.partition(" cells ")[0].split()
    if words[0] == "refused":
        return Refusal(int(words[1]))
    if words[0] == "fails":
        return Fails(int(words[1]))
    if words[0] == "low":
        return int(words[1]), int(words[3])
    return [int(word) for word in words[1:]] if words[0] == "counts" else line


def begins_published(name):
    """Does the stored case file, after its number of cases, begin with the published ones?"""
    stored = (root / f"crates/{name}_cases/stdin").read_bytes()
    return stored[8:].startswith(b"".join(pack(case.words()) for case in MODULES[name][0].published_cases()))


def differences(name, entries):
    lines = (root / f"crates/{name}_cases/stdout").read_text().splitlines()
    if len(lines) < len(entries) or not begins_published(name):
        yield f"{name}: the case file does not begin with the published figures"
        return
    for entry, line in zip(entries, lines):
        if not published.agrees(answer_of(line), entry.printed):
            yield f"{entry.where}: printed {entry.printed}, and the proved program has {line}"


def deck_differences():
    crate = root / "crates/decklist_program"
    if (crate / "stdin").read_bytes() != published.DECK_FILE or (crate / "stdout").read_text() != published.DECK_LINES:
        yield "decklist is not run on document 01's file, or prints something else"


def main():
    wrong = list(deck_differences())
    for name, entries in LISTS.items():
        found = list(differences(name, entries))
        print(f"{name}: {len(entries)} published, {len(found)} differ")
        wrong += found
    for line in wrong:
        print(line)
    return 1 if wrong else 0


if __name__ == "__main__":
    sys.exit(main())
