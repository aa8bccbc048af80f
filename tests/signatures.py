"""Each C call is declared as it is defined: the header's prototype has the parameters of the Rattle function, by name, type and order, and the type of
its answer.

A borrowed list is a pointer of the same name in C and, after it, a length of any name; a pair of ends is a pointer alone. The proofs speak of parameters by their
names, and say nothing of the order in which C passes them. The calls stand in libraries, and a crate of its own exports them; crate ratings_c is the benchmark's and
has no header. Each program's crate calls its own function, and ends with the status that it answers.
"""

import re
import sys

from tests.common import EVERY_PROGRAM, prototypes, reported, root

HEADERS = {"loading_c": "foambeetle.h", "office_c": "foambeetle_office.h"}
WITHOUT_HEADER = {"ratings_c"}
MAIN = re.compile(r"\b(?:first|further)_programs::(\w+)_run\(&rt\)")
NUMBERS = {"u8": "uint8_t", "u16": "uint16_t", "u32": "uint32_t", "u64": "uint64_t", "i64": "int64_t", "f64": "double"}
EXPORT = re.compile(r'#\[unsafe\(no_mangle\)\]\s+pub extern "C" fn (\w+)\(([^()]*)\) -> (\w+)')
PARAMETER = re.compile(r"(\w+): (?:(\w+)|&(mut )?\[(\w+)(; \d+)?\])$")
LENGTH = re.compile(r"size_t \w+$")
SOME_LENGTH = "size_t LENGTH"


def in_c(parameter):
    """A parameter of a Rattle function as C has it, one or two; as it stands where C has no such type."""
    found = PARAMETER.match(parameter)
    if not found or (found[2] or found[4]) not in NUMBERS:
        return [parameter]
    name, number, changed, item, fixed = found.groups()
    if number:
        return [f"{NUMBERS[number]} {name}"]
    pointer = f"{'' if changed else 'const '}{NUMBERS[item]} *{name}"
    return [pointer] if fixed else [pointer, SOME_LENGTH]


def exports(crate):
    """The functions that a crate exports to C, as its header must declare them, and how often the crate says that it exports one."""
    text = "\n".join(file.read_text() for file in sorted((root / "crates" / crate / "src").rglob("*.rt")))
    calls = {}
    for name, parameters, answer in EXPORT.findall(text):
        listed = [" ".join(one.split()) for one in parameters.split(",") if one.strip()]
        calls[name] = NUMBERS.get(answer, answer), [one for parameter in listed for one in in_c(parameter)]
    return calls, len(re.findall(r'\bextern "C"', text))


def declared(header):
    """The header's prototypes; a length may have any name."""
    calls = prototypes((root / "include" / header).read_text())
    return {name: (answer, [LENGTH.sub(SOME_LENGTH, one) for one in parameters]) for name, (answer, parameters) in calls.items()}


def differences(crate, header):
    (defined, said), shown = exports(crate), declared(header)
    if said != len(defined):
        yield f'crates/{crate}: {said} functions are extern "C", and {len(defined)} of them could be read'
    for name in sorted({*defined, *shown}):
        if defined.get(name) != shown.get(name):
            yield f"{name}: crates/{crate} has {defined.get(name)}, include/{header} {shown.get(name)}"


def misdirected():
    """Programs whose main calls the function of another."""
    for program in EVERY_PROGRAM:
        called = MAIN.findall((root / "crates" / f"{program}_program" / "src/main.rt").read_text())
        if called != [program]:
            yield f"{program}_program calls {', '.join(called) or 'no program'}"


def main():
    exporting = {folder.name for folder in (root / "crates").iterdir() if exports(folder.name)[1]}
    wrong = [f"crates/{crate} exports to C, or does so no more" for crate in sorted(exporting ^ {*HEADERS, *WITHOUT_HEADER})]
    wrong += misdirected()
    wrong += [line for pair in HEADERS.items() for line in differences(*pair)]
    calls = sum(len(declared(header)) for header in HEADERS.values())
    return reported(wrong, f"{calls} C calls declared, {len(wrong)} things wrong")


if __name__ == "__main__":
    sys.exit(main())
