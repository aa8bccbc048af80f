"""Each must-fail edit was refused because a fact no longer holds, not because the proofs no longer fit the code's shape. There are no more of them than
docs/PROOFS.md allows.

    python3 -m tests.edits [LOG]

Reads what rt ci said of each edit in LOG (target/ci.log otherwise), the first thing that was refused, and prints a line for each edit: fact or shape, and
that refusal. An edit shows something if it keeps the code's operations and changes an operand.
"""
import re
import sys
from pathlib import Path
from typing import NamedTuple

from tests.common import root

SHOWN = 150  # characters of a refusal
# What rt ci says of an edit that is refused, also where an earlier run tried it.
SAID = re.compile(r"^rt: must-fail (\w+/\w+)\.edit: refused, as it must be: (.*)$", re.M)
# What docs/PROOFS.md allows, in its section of that name.
ALLOWED = "Time of the check"
MOST_EDITS = re.compile(r"There are at most ([\d,]+) of them\.")

# A refusal in a proof file or a specification, which names the declaration unless the file could not be read; and one in a proof that rattle made.
ERROR = re.compile(r"(?P<place>\S+:\d+):\d+: error: (`(?P<name>[^`]*)`: )?(?P<text>.*)")
NOTE = re.compile(r"note: (?P<place>\S+:\d+):\d+: (?P<text>it is not proved that .*) \(`(?P<name>[^`]*)`\)")
# What the prover says of a proof file that was written for code of another shape.
SHAPE = re.compile("|".join((
    r"has no `[^`]*` that can be named from here",  # a need, an invariant or a measure that the code no longer asks for
    r"has no (field|member|child|constructor|clause|case|implicit argument)\b",  # a way to a fact that leads nowhere now
    r"not in scope|is ambiguous|exports no such name",
    r"does not parse|unexpected token|unexpected closing delimiter|unclosed delimiter",
    r"this is applied to an argument but has type|this pattern needs a function|too (few|many) arguments|more argument\(s\)",
    r"a dimension \(.*\) is expected here",  # a fact of another form, taken for a path
    r"the borrow checker (does not cover|has no part)",
)))
# Declarations of a proof file that fit one shape of the code alone: the invariant and the measure of a loop take its variables, and the last
# one hands over an answer to each need, in the order of the code.
OF_THE_SHAPE = re.compile(r"(invariant-.*|decreases-.*|.*[-_]spec)$")

# What an operation is in a line of code; comparisons stand for each other.
OPERATIONS = {
    "sum": r"\+", "difference": r"(?<!-)-(?!>)", "product": r"(?<=[\w)\]]) \* ", "quotient": r"(?<!/)/(?!/)", "remainder": "%", "shift": "<<|>>",
    "cast": r"\bas\b", "index": r"(?<=\w)\[", "call": r"(?<=\w)\((?!\))", "field": r"(?<=[\w)\]])\.(?=[a-z])", "loop": r"\b(while|for|loop)\b",
    "branch": r"\b(if|match)\b", "return": r"\breturn\b", "local": r"\blet\b",
}


class Refused(NamedTuple):
    """One refusal of the prover's: the file and line, the declaration if any, and what was said of it."""

    place: str
    name: str | None
    text: str


def refusals(line):
    """What was refused first, as rt tells it in one line."""
    error, note = ERROR.match(line), NOTE.match(line)
    if error:
        return [Refused(error["place"].removeprefix("./"), error["name"], error["text"])]
    return [Refused(note["place"].removeprefix("./"), note["name"], note["text"])] if note else []


def pairs(edit):
    """The old and new texts of an edit, by file."""
    file, old = "", ""
    for line in edit.read_text().splitlines():
        word, _, text = line.partition(":")
        if word == "file":
            file = text.strip()
        elif word == "old":
            old = text
        elif word == "new":
            yield file, old, text


def changed_operations(edit):
    """The operations of the code that the edit has more or fewer of."""
    code = [(old, new) for file, old, new in pairs(edit) if file.startswith("src/")]
    before, after = (" ".join(texts) for texts in zip(*code)) if code else ("", "")
    return [name for name, pattern in OPERATIONS.items() if len(re.findall(pattern, before)) != len(re.findall(pattern, after))]


def misfit(edit, found):
    """Why the refusal shows nothing; None where it shows that a fact no longer holds."""
    if not found:
        return "no proof was refused"
    for one in found:
        if one.place.startswith("specs/"):
            return f"a definition was refused, and no proof, at {one.place}"
        if one.name is None or OF_THE_SHAPE.match(one.name) or SHAPE.search(one.text):
            return f"the proof no longer fits at {one.place}"
    changed = changed_operations(edit)
    return f"the edit has another number of: {', '.join(changed)}" if changed else None


def substance(text):
    """The part of a refusal that says what differs."""
    part = re.search(r"computed as far as they go, (the two \w+ (first differ|differ|are) .*)|(the goal does not follow)", text)
    return re.sub(r"\s+", " ", (part[1] or part[3]) if part else text).split(" expected type")[0][:SHOWN]


def judged(edit, said):
    """Whether the edit shows something, and the line that says so."""
    name = f"{edit.parent.parent.name}/{edit.stem}"
    found = refusals(said.get(name, ""))
    first = f"{found[0].place} {found[0].name}: {substance(found[0].text)}" if found else f"rt says: {said.get(name, 'nothing')[:SHOWN]}"
    why = misfit(edit, found)
    return (False, f"shape {name}: {why}; first {first}") if why else (True, f"fact  {name}: {first}")


def within(count):
    """Are the edits as few as docs/PROOFS.md allows?"""
    section = (root / "docs/PROOFS.md").read_text().partition(f"\n## {ALLOWED}\n")[2].partition("\n## ")[0]
    found = MOST_EDITS.search(section)
    most = int(found[1].replace(",", "")) if found else None
    if most is None or count > most:
        print(f"{count} edits in all, and docs/PROOFS.md allows {'no number that could be read' if most is None else most}")
        return False
    return True


def main(arguments):
    log = Path(arguments[0]) if arguments else root / "target/ci.log"
    said = dict(SAID.findall(log.read_text(errors="replace")))
    edits = sorted((root / "crates").glob("*/must-fail/*.edit"))
    lines = sorted((judged(edit, said) for edit in edits), key=lambda line: not line[0])  # what shows nothing stands last
    for _, line in lines:
        print(line)
    bad = sum(not good for good, _ in lines)
    good = bool(edits) and within(len(edits))
    print(f"{len(edits)} must-fail edits, {bad} refused for their shape")
    return 0 if good and not bad else 1


if __name__ == "__main__":
    sys.exit(main(sys.argv[1:]))
