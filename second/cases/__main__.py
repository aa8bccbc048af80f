"""Makes a case file and the answers it must get.

    python3 -m second.cases NAME STDIN STDOUT

NAME is verdict, figures or counts; the figures' cases are followed by those of
the worth of a fan. STDIN gets the number of cases and then the cases, all of it
unsigned 64-bit little-endian words; STDOUT gets one line for each case. The same
NAME always gives the same two files.
"""

import sys

from second.cases.modules import MODULES
from second.cases.words import pack

MOST_BYTES = 6 * 2 ** 18  # the room that a case-running program has for either file


def missing_answers(wanted, lines):
    """The answers that no line begins with; a case file without them would check too little."""
    return sorted(answer for answer in wanted
                  if not any(f"{line} ".startswith(f"{answer} ") for line in lines))


def lines_of(module, cases):
    lines = [case.line() for case in cases]
    missing = missing_answers(module.ANSWERS_WANTED, lines)
    if missing:
        sys.exit(f"no case of {module.__name__} is answered: {', '.join(missing)}")
    return lines


def write_file(path, data):
    if len(data) > MOST_BYTES:
        sys.exit(f"{path}: {len(data)} bytes, and a case-running program reads and writes {MOST_BYTES}")
    with open(path, "wb") as target:
        target.write(data)


def write_cases(modules, input_path, output_path):
    made = [(module, module.make_cases()) for module in modules]
    cases = [case for _, some in made for case in some]
    lines = [line for module, some in made for line in lines_of(module, some)]
    write_file(input_path, pack([len(cases)]) + b"".join(pack(case.words()) for case in cases))
    write_file(output_path, "".join(line + "\n" for line in lines).encode("ascii"))


def main(arguments):
    if len(arguments) != 3 or arguments[0] not in MODULES:
        sys.exit(f"usage: python3 -m second.cases {'|'.join(MODULES)} STDIN STDOUT")
    write_cases(MODULES[arguments[0]], arguments[1], arguments[2])


if __name__ == "__main__":
    main(sys.argv[1:])
