"""The stack that each of the libraries' calls can need: the frames of the compiled code, added up along the deepest chain of calls.

tests/calls.py runs the ship's calls on a stack of just the bytes that are granted. Here the paths that no case takes are counted too, and the office's calls are held
to what their header and man page say. Code that moves the stack in an unknown way, calls a function that it does not name, or calls itself, is a failure.
"""

import re
import sys
from functools import lru_cache

from tests.common import OFFICE, SHIP, ready, reported, root, run, tools

MOST_STACK = 70000  # document 02, request 07
CALLS = {
    SHIP: ("foambeetle_rate", "foambeetle_worth", "foambeetle_gain", "foambeetle_unit"),
    OFFICE: ("foambeetle_write", "foambeetle_chance", "foambeetle_chance_between", "foambeetle_rate_doubles"),
}
SAID = re.compile(r"up to\s+(?:\*\s+)?([\d,]+)\s+(?:\*\s+)?bytes\s+(?:\*\s+)?of\s+(?:\*\s+)?stack")
OUTSIDE = {"memcpy": 256, "memset": 256}  # of a C library, whose own code is not ours to read
RED_ZONE = 128  # what a function that calls nothing may use below its frame
WORD = 8

FUNCTION = re.compile(r"^[0-9a-f]+ <(\S+)>:$")
INSTRUCTION = re.compile(r"^\s+[0-9a-f]+:\s+([a-z]\S*)\s*(.*)$")
TARGET = re.compile(r"^\s+[0-9a-f]+: R_X86_64_PLT32\s+(?:\.text\.)?([^\s+-]+)")
INSIDE = re.compile(r"<([^+>]+)>$")  # a call that the compiler has settled itself, of the function that it stands in
BELOW = re.compile(r"^\$(0x[0-9a-f]+|\d+),%(rsp|r11)$")


def disassembled(library):
    """The archive's code, a list of lines for each function."""
    compiler = tools()[0]
    text = run([compiler.replace("gcc", "objdump"), "-dr", "--no-show-raw-insn", root / f"target/lib/lib{library}.a"]).decode()
    functions, lines = {}, []
    for line in text.splitlines():
        if found := FUNCTION.match(line):
            functions[found[1]] = lines = []
        lines.append(line)
    return functions


def moved(code, wrong, name):
    """How far a function's instructions move the stack down: pushes, and what is subtracted. A frame of more than a page is made step by step up to
    a mark that is worked out first: the mark is what counts, and the step behind it is of the loop."""
    depth, marked = 0, False
    for word, rest in code:
        below = BELOW.match(rest)
        if word.startswith("push"):
            depth += WORD
        elif word.startswith("sub") and below and below[2] == "r11":
            depth, marked = depth + int(below[1], 0), True
        elif word.startswith("sub") and below:
            depth, marked = depth + (0 if marked else int(below[1], 0)), False
        elif rest.endswith(",%rsp") and not word.startswith(("add", "cmp", "test")):
            wrong.append(f"{name}: {word} {rest} moves the stack in a way that is not known")
    return depth


def read(lines, wrong):
    """A function's frame, with the place that it returns to, and whom it calls."""
    name = FUNCTION.match(lines[0])[1]
    code, called = [], set()
    for line, after in zip(lines[1:], [*lines[2:], ""]):
        if found := TARGET.match(line):
            called.add(found[1])
        elif found := INSTRUCTION.match(line):
            code.append((found[1], found[2]))
            if found[1].startswith("call") and not TARGET.match(after):
                inside = INSIDE.search(found[2])
                called.update(inside.groups() if inside else ())
                wrong += [] if inside else [f"{name}: {found[1]} {found[2]} does not say whom"]
    return WORD + moved(code, wrong, name), called


def depths_of(library, wrong):
    """How deep each call of a library can go."""
    functions = {name: read(lines, wrong) for name, lines in disassembled(library).items()}
    standing = set()

    @lru_cache(maxsize=None)
    def deepest(name):
        if name in OUTSIDE:
            return OUTSIDE[name]
        if name in standing:
            wrong.append(f"{name} calls itself, and nobody says how often")
            return 0
        frame, called = functions[name]
        standing.add(name)
        below = max(map(deepest, called), default=RED_ZONE)
        standing.remove(name)
        return frame + below

    return {call: deepest(call) for call in CALLS[library]}


def said_by(library):
    """What a library's header and man page say that its calls use at most."""
    for file in (root / f"include/{library}.h", root / f"man/{library}.3"):
        yield file, [int(found.replace(",", "")) for found in SAID.findall(file.read_text())]


def main():
    ready("lib")
    wrong, told = [], []
    for library in CALLS:
        depths = depths_of(library, wrong)
        most = max(depths.values())
        told.append(f"{library}: {depths}")
        wrong += [f"{file.relative_to(root)} says {said}, and {most} bytes can be needed" for file, said in said_by(library) if not said or min(said) < most]
        wrong += [f"{call} can need {depth} bytes" for call, depth in depths.items() if library == SHIP and depth > MOST_STACK]
    return reported(wrong, f"stacks by the frames, {'; '.join(told)}; at most {MOST_STACK} bytes aboard")


if __name__ == "__main__":
    sys.exit(main())
