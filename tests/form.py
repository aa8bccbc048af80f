"""No bare refusal number, kind, limit, unit or version in the code: `rules` has each by its name, with the document's sentence (crates/rules/src: kind, limit,
refusal, version). And the form that the house keeps: no function of more than eight parameters beside the
runtime's handle, forty lines or one loop, no line of code over 120 columns but for texts and imports."""

import re
import sys

from tests.common import reported, root

WIDEST, PARAMETERS, LINES, LOOPS = 120, 8, 40, 1
# Where a number that looks like one of these is none: tables of numbers, the characters and places of a text, and rooms in bytes.
TABLES = ("crates/pascal/src/lib.rt", "crates/grammar/src/entries.rt")
REFUSED = re.compile(r"\bRefused\(\d+\)|\brefused\(\d+\)")
KIND = re.compile(r"\bkind\s*(?:==|!=|<=|>=|<|>)\s*\d")
ARM = re.compile(r"^\s*\d+(?:\s*\|\s*\d+)*\s*=>")
NAMED = re.compile(r"(?<!UPPER_PARTS: u64 = )\b(?:7800|10000|1073741824|1000000000)\b(?!\.)")  # a float, and a share's upper digit, are no unit
LOOP = re.compile(r"\b(?:while|for|loop)\b")
CODE = re.compile(r'//[^\n]*|b"(?:\\.|[^"\\])*"', re.S)


def sources():
    return sorted(root.glob("crates/*/src/*.rt"))


def bare(file, text):
    """Lines with a number that has a name."""
    if str(file.relative_to(root)) in TABLES or file.parent.parent.name == "rules":
        return
    in_kinds = False
    for number, line in enumerate(CODE.sub(lambda found: "\n" * found[0].count("\n"), text).split("\n"), 1):
        in_kinds = (in_kinds or re.search(r"\bmatch (kind|number|refusal)\b", line) is not None) and line.strip() != "}"
        if REFUSED.search(line) or KIND.search(line) or NAMED.search(line) or (in_kinds and ARM.search(line)):
            yield f"{file.relative_to(root)}:{number}: {line.strip()}"


def functions(text):
    """Each function's name, how many parameters it has, how many lines and loops its body, and whether C calls it."""
    for found in re.finditer(r'^[ ]*(?:pub )?(extern "C" )?fn (\w+)(?:<[^>]*>)?\(', text, re.M):
        depth, at = 1, found.end()
        while depth:
            depth += {"(": 1, ")": -1}.get(text[at], 0)
            at += 1
        parameters = [one for one in text[found.end():at - 1].split(",") if one.strip() and not one.strip().startswith("rt:")]
        indent = " " * (len(found[0]) - len(found[0].lstrip()))
        body = text[text.index(f"\n{indent}{{\n", at) if f"\n{indent}{{\n" in text[at:text.find(f"\n{indent}}}", at)] else at:text.index(f"\n{indent}}}", at)]
        yield found[2], len(parameters), body.count("\n"), len(LOOP.findall(CODE.sub("", body))), bool(found[1]) or found[2].startswith("foambeetle_")


def misshapen(file, text):
    place = file.relative_to(root)
    for number, line in enumerate(text.split("\n"), 1):
        if len(line) > WIDEST and 'b"' not in line and "\\n" not in line and not line.startswith("ghost use "):
            yield f"{place}:{number}: {len(line)} columns"
    for name, parameters, lines, loops, for_c in functions(text):
        if parameters > PARAMETERS and not for_c:
            yield f"{place}: {name} has {parameters} parameters"
        if lines > LINES + 1:
            yield f"{place}: {name} has {lines} lines"
        if loops > LOOPS:
            yield f"{place}: {name} has {loops} loops"


def main():
    files = [(file, file.read_text()) for file in sources()]
    wrong = [line for file, text in files for line in (*bare(file, text), *misshapen(file, text))]
    return reported(wrong, f"{len(files)} files of code looked at")


if __name__ == "__main__":
    sys.exit(main())
