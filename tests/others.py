"""The gate's other tests, as many at a time as there are processors (RT_JOBS, if set), the longest first.

    python3 -m tests.others LOG [WORD..]    all of them, or those whose command has one of the words

What they start is built first, so that no two of them build in one folder; tests that start nothing run meanwhile. A test that passes has one line. A test that
fails shows all that it said before that line. While none ends, a line every half minute says what is running. LOG gets all that each said, one test after
the other. The last line is how long each part of the gate took. The exit status is how many failed.
"""

import os
import re
import subprocess
import sys
import time
from concurrent.futures import FIRST_COMPLETED, ThreadPoolExecutor, wait
from typing import NamedTuple

from tests.common import BUILT, EVERY_PROGRAM
from tests.progress import QUIET, ROOT, TOOK, keep, still

JOBS = int(os.environ.get("RT_JOBS") or os.cpu_count() or 1)


class Test(NamedTuple):
    name: str
    command: str
    starts: bool = True  # what is built before: programs or libraries


class Ended(NamedTuple):
    """A test that has come to its end: its exit status, its lines, and how long it took."""

    test: Test
    status: int
    said: list
    seconds: float


LINKED = " ".join(f"target/programs/{program}" for program in EVERY_PROGRAM)
BUILD = Test("what the other tests start is built", f"make --no-print-directory lib {LINKED}")
TESTS = tuple(Test(*line) for line in (
    ("the library's calls and the programs against the second program", "python3 -m tests.calls"),
    ("deckpage against the second program, and in a browser", "python3 -m tests.page"),
    ("deckmend against the second program", "python3 -m tests.mend"),
    ("deckmake and deckshow against the second program", "python3 -m tests.typed"),
    ("the season report against the second program", "python3 -m tests.season"),
    ("the second program checks itself", "python3 -m second.checks", False),
    ("deckstate against the second program", "python3 -m tests.states"),
    ("refusals in words, and what they advise carried out", "python3 -m tests.words"),
    ("deckspare against the second program", "python3 -m tests.spare"),
    ("the office's calls over doubles against the second program", "python3 -m tests.doubles"),
    ("the Python package against the second program", "python3 -m tests.python"),
    ("what is installed runs, and goes again", "python3 -m tests.install"),
    ("the libraries link every way, and export their calls alone", "python3 -m tests.library"),
    ("the stored cases are the second program's", "tests/cases.sh", False),
    ("the programs' words, percents and failures", "python3 -m tests.program"),
    ("the office's writer against the second program", "python3 -m tests.office"),
    ("the guide and README.md are true as printed", "python3 -m tests.walk"),
    ("each must-fail edit is refused for a fact", "python3 -m tests.edits", False),
    ("one version everywhere", "python3 -m tests.version"),
    ("the list of proofs names what there is", "python3 -m tests.names", False),
    ("the library's calls hold within the stack that the ship grants", "python3 -m tests.stack"),
    ("the published figures are what the proved programs print", "python3 -m tests.published", False),
    ("the headers declare the C calls as they are defined", "python3 -m tests.signatures", False),
    ("numbers by their names, and the form of the code", "python3 -m tests.form", False),
    ("proofs name the points of the code, and no chain is long", "python3 -m tests.ladders", False),
))


def ended(test):
    """Runs a test to its end."""
    began = time.time()
    done = subprocess.run(test.command.split(), cwd=ROOT, env={**os.environ, BUILT: "yes"}, stdin=subprocess.DEVNULL, stdout=subprocess.PIPE,
                          stderr=subprocess.STDOUT, text=True, errors="replace")
    return Ended(test, done.returncode, done.stdout.splitlines(), time.time() - began)


def tell(one, which, log):
    """What is shown of a test at its end: what it skipped, or everything where it failed, and the line that says so."""
    line = f"FAILED {which}: {one.test.name}" if one.status else f"passed {which}: {one.test.name} ({one.seconds:.0f} s)"
    print(*(said for said in one.said if one.status or said.startswith("skipped")), line, sep="\n", flush=True)
    keep(log, "\n".join([*one.said, line]))


def each_ended(tests):
    """The tests as they end."""
    began, pool = time.time(), ThreadPoolExecutor(JOBS)
    try:
        waiting = {pool.submit(ended, test): test.name for test in tests}
        while waiting:
            done, _ = wait(waiting, QUIET, FIRST_COMPLETED)
            if not done:
                print(still([name for future, name in waiting.items() if future.running()], began), flush=True)
            for future in done:
                del waiting[future]
                yield future.result()
    finally:
        pool.shutdown(cancel_futures=True)


def failures(tests, log):
    """How many of the tests fail; all of them where what they start cannot be built."""
    failed, total = 0, 1 + len(tests)
    starting = [test for test in tests if test.starts]
    first = [BUILD, *(test for test in tests if not test.starts)]
    built = True
    for place, one in enumerate(each_ended(first), 1):
        tell(one, f"{place} of {total}", log)
        failed += one.status != 0
        built &= one.test is not BUILD or one.status == 0
    if not built:
        print(f"not run, since what they start could not be built: {len(starting)} tests")
        return failed + len(starting)
    for place, one in enumerate(each_ended(starting), 1 + len(first)):
        tell(one, f"{place} of {total}", log)
        failed += one.status != 0
    return failed


def times(log, seconds):
    """How long each part of the gate took, those before the tests as tests/progress.py left them in the log."""
    before = [line.removeprefix(TOOK) for line in log.read_text(errors="replace").splitlines() if line.startswith(TOOK)]
    parts = ", ".join((*before[-1:], f"other tests {seconds:.0f} s"))
    return f"{parts}: {sum(map(int, re.findall(r'([0-9]+) s', parts)))} s in all"


def main(arguments):
    log, words = ROOT / arguments[0], arguments[1:]
    began = time.time()
    failed = failures([test for test in TESTS if not words or any(word in test.command for word in words)], log)
    line = times(log, time.time() - began)
    print(line)
    keep(log, line)
    return failed


if __name__ == "__main__":
    sys.exit(main(sys.argv[1:]))
