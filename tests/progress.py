#!/usr/bin/env python3
"""Runs rt, keeps all that it says in a log, and shows how far it is.

    progress.py LOG rt ci               at the top, over every crate
    progress.py LOG CRATE rt WORDS..    in a crate's folder

A line for each crate proved, must-fail edit refused and program run, of how many; while nothing ends, one every half minute says so. The log's last
line says how long each of these took. tests/others.py shows the other tests in the same way.
"""

import queue
import re
import subprocess
import sys
import threading
import time
from pathlib import Path

ROOT = Path(__file__).resolve().parent.parent
QUIET = 30  # seconds without a line, at most
SHOWN = 300  # characters of a line of the prover's
MOST_ERRORS = 5
# What rt says when a thing has passed, and the word that is shown for it. Everything else that it says of itself is shown as it stands.
PASSED = (
    ("proved", re.compile(r"rt: (\w+) (?:proved$|is kept: an earlier run on this machine proved )")),
    ("proved", re.compile(r"checked (\w+)::\S+, (?P<last>\d+) of (?P=last)$")),  # its last function
    ("refused", re.compile(r"rt: must-fail (\w+/\w+)\.edit: refused, as it must be: ")),
    ("ran", re.compile(r"rt: (\w+) ran\b.*, and wrote what its file stdout has")),
)
TALLY = re.compile(r"\d+ passed, \d+ failed$")
# What rt ci goes through, one after the other, by the word that is shown; and how the log's line of their times begins.
PARTS = {"proved": "proofs", "refused": "must-fail edits", "ran": "programs"}
TOOK = "took: "


def house():
    """The crates of crates.txt, each with the crates it stands on."""
    lines = (line.split("#")[0] for line in (ROOT / "crates.txt").read_text().splitlines())
    listed = {name.strip(): below.split() for name, colon, below in (line.partition(":") for line in lines) if colon}
    return {name: [one for one in below if one in listed] for name, below in listed.items()}


def reached(names):
    """The named crates and all that they stand on; every crate where none is named."""
    listed, found, waiting = house(), set(), list(names)
    while waiting:
        name = waiting.pop()
        if name in listed and name not in found:
            found.add(name)
            waiting += listed[name]
    return found or set(listed)


def totals(names):
    """How many crates, must-fail edits and programs rt goes through for these crates."""
    crates = reached(names)
    edits = sum(len(list((ROOT / "crates" / name / "must-fail").glob("*.edit"))) for name in crates)
    programs = sum((ROOT / "crates" / name / "src/main.rt").exists() for name in crates)
    return {"proved": len(crates), "refused": edits, "ran": programs}


class RtLines:
    """What is shown of rt's lines."""

    def __init__(self, names):
        self.total, self.count, self.errors, self.last = totals(names), {}, 0, {}

    def show(self, line):
        for word, pattern in PASSED:
            found = pattern.match(line)
            if found:
                self.count[word], self.last[word] = self.count.get(word, 0) + 1, time.time()
                return f"{word} {self.count[word]} of {self.total[word]}: {found[1]}"
        if ": error" in line and "was not admitted (" not in line and self.errors < MOST_ERRORS:
            self.errors += 1
            return line[:SHOWN]
        return line if line.startswith("rt: ") and not line.startswith("rt: ok") else None

    @staticmethod
    def logged(line):
        # the last line of the gate's log is to be the only one of its form
        return f"rt {line}" if TALLY.match(line) else line

    def took(self, began):
        """How long each part took, from the last line of the part before it to its own last one."""
        ends = [began]
        for word in PARTS:
            ends.append(self.last.get(word, ends[-1]))
        return TOOK + ", ".join(f"{name} {end - start:.0f} s" for name, start, end in zip(PARTS.values(), ends, ends[1:]))


def still(names, began):
    return f"  at work for {time.time() - began:.0f} s" + (f": {', '.join(sorted(names))}" if names else "")


def keep(log, line):
    # opened line by line, and never before there is one: rt ci begins by removing target/, where the log stands
    log.parent.mkdir(parents=True, exist_ok=True)
    with open(log, "a", encoding="utf-8") as target:
        target.write(line + "\n")


def follow(words, folder, lines, log):
    """Runs rt to its end; its exit status."""
    began, said = time.time(), queue.Queue()
    command = subprocess.Popen(words, cwd=folder, stdin=subprocess.DEVNULL, stdout=subprocess.PIPE, stderr=subprocess.STDOUT, text=True, errors="replace")

    def listen():
        for line in command.stdout:
            said.put(line.rstrip("\n"))
        said.put(None)

    threading.Thread(target=listen, daemon=True).start()
    quiet_since = began
    while True:
        shown = None
        try:
            line = said.get(timeout=max(0.0, quiet_since + QUIET - time.time()))
            if line is None:
                break
            keep(log, lines.logged(line))
            shown = lines.show(line)
        except queue.Empty:
            shown = still([], began)
        if shown is not None:
            print(shown, flush=True)
            quiet_since = time.time()
    status = command.wait()
    keep(log, lines.took(began))
    if status:
        print(f"NOT PASSED: the prover's text is in {log.relative_to(ROOT)}")
    return status


def main(arguments):
    log, words = ROOT / arguments[0], arguments[1:]
    crate = words.pop(0) if words[0] != "rt" else None
    log.unlink(missing_ok=True)
    try:
        return follow(words, ROOT / "crates" / crate if crate else ROOT, RtLines([crate] if crate else []), log)
    except FileNotFoundError:
        print(f"{words[0]} is not on the path (README.md says what is needed)")
        return 2


if __name__ == "__main__":
    sys.exit(main(sys.argv[1:]))
