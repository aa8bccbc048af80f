"""docs/GUIDE.md and README.md are true as printed.

Every command of the guide is run in order, in a folder that has samples/, python/ and target/, and must print the block behind it. A program in C, C++ or
Python is the block before its command. doctest runs the lines behind >>>. The guide's list is samples/hold1.txt, which makes samples/hold1.deck. README.md begins
with it and with two lines of its figures, and `make run` prints them.
"""

import os
import platform
import re
import shutil
import subprocess
import sys
import tempfile
from pathlib import Path

from tests.common import EVERY_PROGRAM, STRICT, held, make, plus, prove, ready, root, run, tools

GUIDE = root / "docs/GUIDE.md"
# outside the checkout, below which rt takes no link
FOLDER = Path(tempfile.gettempdir()) / f"foambeetle-guide-{os.getpid()}"
SOURCES = (".c", ".cc", ".py")


def blocks(*kinds):
    """The guide's blocks of these kinds, in their order, each with its kind."""
    return re.findall(rf"^```({'|'.join(kinds)})\n(.*?)^```$", GUIDE.read_text(), re.S | re.M)


def figures():
    """The lines that decklist is said to print of the guide's list."""
    return next(text for kind, text in blocks("text") if text.startswith("deck "))


def stand_in(name, *words):
    """A command of this name in the guide's folder, which starts these words."""
    file = FOLDER / "bin" / name
    file.write_text(f"#!/bin/sh\nexec {' '.join(map(str, words))} \"$@\"\n")
    file.chmod(0o755)


def prepared():
    """The folder in which the guide's commands are run: the programs that make has linked stand in for the installed ones, and the tests' compilers for x86-64
    for the machine's."""
    shutil.rmtree(FOLDER, ignore_errors=True)
    (FOLDER / "bin").mkdir(parents=True)
    for name in ("samples", "python", "target"):
        (FOLDER / name).symlink_to(root / name)
    for program in EVERY_PROGRAM:
        stand_in(program, root / "tests/run-program", program)
    stand_in("cc", tools()[0], "-static", "-std=c99", *STRICT)
    stand_in("c++", plus(), "-static", "-std=c++11", *STRICT)
    stand_in("python3", sys.executable)


def missing(command):
    """Why a command cannot be run on this machine, or nothing."""
    if "two-plus" in command and shutil.which(plus()) is None:
        return f"there is no {plus()}"
    if "python3" in command and platform.machine() != "x86_64":
        return f"this Python is for {platform.machine()}"
    return ""


def printed(command, program):
    """What a block of commands prints, to both streams; a program's text is put where the commands look for it."""
    for name in re.findall(r"\S+", command):
        if name.endswith(SOURCES) and not (FOLDER / name).exists():
            (FOLDER / name).write_text(program)
    command = re.sub(r"^\./", " ".join([*tools()[1], "./"]), command, flags=re.M) if tools()[1] else command
    own = {**os.environ, "PATH": f"{FOLDER / 'bin'}:{os.environ['PATH']}", "PYTHONDONTWRITEBYTECODE": "1"}
    return subprocess.run(["sh", "-c", command], cwd=FOLDER, env=own, stdin=subprocess.DEVNULL, stdout=subprocess.PIPE, stderr=subprocess.STDOUT, text=True).stdout


def commands_print_as_said():
    """Each block of commands prints the block of text behind it."""
    good, program, command = True, "", ""
    for kind, text in blocks("c", "cpp", "python", "sh", "text"):
        if kind == "sh":
            command = text
        elif kind != "text":
            program = text
        elif missing(command):
            print(f"skipped: {command.split()[0]}, since {missing(command)}")
        else:
            said = printed(command, program)
            if said != text:
                print(f"{command}printed\n{said}and not\n{text}", end="")
                good = False
    return good


def every_text_has_its_command():
    """No text stands without a command before it, and no command without its text."""
    kinds = [kind for kind, _ in blocks("sh", "text")]
    return len(kinds) > 2 and kinds == ["sh", "text"] * (len(kinds) // 2)


def python_prints_as_said():
    if platform.machine() != "x86_64":
        print(f"skipped: what Python is said to print, since this one is for {platform.machine()}")
        return True
    own = {**os.environ, "PYTHONPATH": str(root / "python"), "FOAMBEETLE_LIBRARY": str(root / "target/lib"), "PYTHONDONTWRITEBYTECODE": "1"}
    said = run([sys.executable, "-m", "doctest", "-o", "NORMALIZE_WHITESPACE", GUIDE], statuses=(0, 1), env=own, cwd=FOLDER).decode()
    print(said, end="")
    return not said and ">>> " in GUIDE.read_text()


def list_is_the_sample():
    (_, text), = blocks("deck")
    return text == (root / "samples/hold1.txt").read_text() and (FOLDER / "hold1.deck").read_bytes() == (root / "samples/hold1.deck").read_bytes()


def readme_begins_with_it():
    """The same list, less its comments, and two lines of its figures."""
    begun = (root / "README.md").read_text().partition("## A list and its figures\n")[2].partition("## ")[0]
    *listed, _, first, second = (line.strip() for line in begun.splitlines() if line.startswith("    "))
    plain = (line.partition("#")[0].strip() for line in blocks("deck")[0][1].splitlines())
    return listed == [line for line in plain if line] and {first, second} <= set(figures().splitlines())


def make_run_prints_it():
    return make("run").decode() == figures()


def main():
    ready("lib")
    prove()
    prepared()
    checks = (every_text_has_its_command, commands_print_as_said, python_prints_as_said, list_is_the_sample, readme_begins_with_it, make_run_prints_it)
    try:
        return 0 if held(*checks) else 1
    finally:
        shutil.rmtree(FOLDER)


if __name__ == "__main__":
    sys.exit(main())
