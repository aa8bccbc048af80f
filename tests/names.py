"""docs/PROOFS.md names what there is: every must-fail edit by its label, and no theorem, definition, function or file that is not in crates/."""

import re
import sys

from tests.common import reported, root

PROOFS = root / "docs/PROOFS.md"
# words in code that are no names of crates/: commands, paths outside, parts of a log
OTHER = re.compile(r"(rt|make|python3) |^\.|/\.|^axioms=|^target/|^docs/|^tests/|^second/|^--|[ =:<>%*^]")


def sources():
    """All that a name may stand in: the text of crates/ and the names of its files and folders."""
    files = [file for file in (root / "crates").rglob("*") if file.suffix in (".antt", ".rt", ".edit")]
    return "\n".join(file.read_text() for file in files) + "\n".join(str(file.relative_to(root)) for file in files)


def quoted():
    return set(re.findall(r"`([^`\n]+)`", PROOFS.read_text()))


def missing(names, text):
    words = set(re.findall(r"[\w'′·μ-]+", text))
    for name in sorted(names):
        parts = [name] if name in text else [part for part in re.split(r"::|\.", name) if part]
        if not OTHER.search(name) and not all(part in words or part in text for part in parts):
            yield f"`{name}` is named and is not in crates/"


def unnamed(names):
    for edit in sorted((root / "crates").glob("*/must-fail/*.edit")):
        if edit.stem not in names:
            yield f"{edit.relative_to(root)} is not named"


def main():
    names = quoted()
    wrong = [*missing(names, sources()), *unnamed(names)]
    return reported(wrong, f"{len(names)} names in docs/PROOFS.md, {len(wrong)} wrong")


if __name__ == "__main__":
    sys.exit(main())
