#!/usr/bin/env python3
"""Brings the repository's own names to today's spelling: run once, at the top, after port.py.

A word of a definition, a lemma or a field in camel case becomes snake case (besideOf: beside_of), and the dash in the name of a field or of a
definition becomes an underscore (kind-low: kind_low), where no lemma has it. Types, modules and the dashes between the words of a lemma's name stay. A name that the
kit has stays too. It writes .antt and .rt files, and in other files nothing.
"""

import os
import pathlib
import re
import shutil
import sys

KIT = pathlib.Path(os.path.realpath(shutil.which("rt"))).parent.parent / "rattle"
WORD = re.compile(r"[^\s(){}\[\].;,@\"«»\\]+")
DECLARED = re.compile(r"^\s*(?:(?:abbrev|unfoldable|pub|record|data)\s+)*([A-Za-z][\w'-]*)\s*:(?:\s|$)")
CAMEL = re.compile(r"(?<=[a-z0-9])[A-Z]")
# Two names that would fall together.
APART = {"allShort": "each_short"}


def kit_words():
    words = set()
    for file in KIT.rglob("*.antt"):
        words.update(WORD.findall(file.read_text(encoding="utf-8", errors="replace")))
    return words


def snake(name):
    """Each lower-case part of a name between dashes, in snake case."""
    parts = name.split("-")
    return "-".join(CAMEL.sub(lambda m: "_" + m.group().lower(), p) if p[:1].islower() else p for p in parts)


def declared(text, of_specs):
    """The names that a file declares, and whether each is a field or a definition, whose dashes go."""
    in_record = False
    for line in text.split("\n"):
        if line and not line[0].isspace():
            in_record = " record " in f" {line} " and line.rstrip().endswith("where") or line.startswith("record ") or line.startswith("pub record ")
        match = DECLARED.match(line)
        if not match:
            continue
        field = in_record and line[:1].isspace()
        if line[:1].isspace() and not field:
            continue
        definition = of_specs and bool(re.match(r"^(abbrev|unfoldable)\b", line))
        yield match.group(1), field or definition


def renamed(root):
    kit = kit_words()
    names, lemmas = {}, set()
    for file in sorted(root.glob("crates/*/*/**/*.antt")):
        of_specs = "specs" in file.parts
        for name, dashes_go in declared(file.read_text(encoding="utf-8"), of_specs):
            if not dashes_go:
                lemmas.add(name)
            new = snake(name)
            if dashes_go and name[:1].islower():
                new = new.replace("-", "_")
            if new != name and name not in kit:
                new = APART.get(name, new)
                names[name] = new if name not in names else min(names[name], new, key=lambda n: n.count("-"))
    return {name: snake(name) if name in lemmas and "-" in name else new for name, new in names.items() if name not in lemmas or snake(name) != name}


def respell(text, names):
    return WORD.sub(lambda m: names.get(m.group(), m.group()), text)


def collisions(root, names):
    for file in sorted(root.glob("crates/*/*/**/*.antt")):
        seen = {}
        for name, _ in declared(file.read_text(encoding="utf-8"), False):
            new = names.get(name, name)
            if seen.setdefault(new, name) != name:
                print(f"look: {file}: {seen[new]} and {name} are both {new} now")


def main():
    root = pathlib.Path(".")
    names = renamed(root)
    collisions(root, names)
    changed = 0
    for file in sorted(root.glob("crates/*/*/**/*")):
        if file.suffix in (".antt", ".rt") and "out" not in file.parts:
            old = file.read_text(encoding="utf-8")
            new = respell(old, names)
            if new != old:
                file.write_text(new, encoding="utf-8")
                changed += 1
    if len(sys.argv) > 1:
        pathlib.Path(sys.argv[1]).write_text("".join(f"{a}\t{b}\n" for a, b in sorted(names.items())), encoding="utf-8")
    print(f"{len(names)} names in {changed} files")


main()
