"""No proof goes back through the code by a chain of more than four `.before`: it names the points that it speaks of once, each from the one after it
(`let at-loop = c.before.before in`), so that one step more in the code moves one name, not each path that goes past it."""

import re
import sys

from tests.common import reported, root

LONGEST = 4
CHAIN = re.compile(r"[\w')-]+(?:\.before\b(?![-\w])){%d,}" % (LONGEST + 1))


def ladders(file, text):
    """Where a chain is too long, and how long it is."""
    for found in CHAIN.finditer(text):
        yield f"{file.relative_to(root)}:{text.count(chr(10), 0, found.start()) + 1}: {found[0].count('.before')} `.before` in one chain"


def main():
    files = [(file, file.read_text()) for file in sorted(root.glob("crates/*/proofs/**/*.antt"))]
    return reported([line for file, text in files for line in ladders(file, text)], f"{len(files)} files of proofs looked at")


if __name__ == "__main__":
    sys.exit(main())
