"""The library's calls and the programs against the second program, byte for byte.

A C program linked with libfoambeetle.a reads 1,800 random deck files of every version, sound and damaged by turns; one of lines shorter than their window, one
of pairs, three whose fans' numbers are near the units, and some whose boards' are. It rates their systems and asks for the worth of a fan, the gain of a spare in
its place and the file's unit. Guard pages stand on either side of what it lends, and its stack shows how deep a call goes. Every refusal is met, and every kind is
answered in every version. Some of the files, and inputs of odd lengths, go through the installed programs; the samples go through the programs and the C samples.
"""

import random
import re
import struct
import sys

from second.model.deck_file import deck_bytes, read_deck
from second.model.loading import rate, unit_of_file, worth_of_file
from second.model.spares import gain_of_file
from second.model.terms import BOARDS_VERSION, KINDS, UNITS, Boards, Deck, Refusal, Rule, System
from second.samples.files import random_files
from second.samples.lists import edges, over
from tests.common import PROGRAMS, SAMPLES, compare, compare_samples, linked, mapped, printed, prove, ready, root, run, sample, started, static

FILES = 1800
PRINTED = 100  # a process each, so fewer
SHORT = 300  # bytes of a file that is printed: the second program works for seconds on the worth of every fan of the longest
REFUSALS = {*range(1, 7), *range(10, 15), 17, 20, 21}  # include/foambeetle.h
MOST_ASKED = 33
HUGE = (2 ** 63, 2 ** 64 - 1)
MOST_STACK = 70000  # of which the working table takes 62,400
CALLS = 4  # of the library


def count_at(data, at):
    """A count of the header; 1 where the file is too short for one."""
    return int.from_bytes(data[at:at + 2], "little") if len(data) >= 8 else 1


def asked(rng, data):
    """The system numbers that are asked of a file, from 0 to past the last, each with the number of a fan, most of them on the deck, and of a spare, most of them
    within the unit."""
    n, m, unit = count_at(data, 4), min(count_at(data, 6), MOST_ASKED), unit_of_file(data) or 1
    for system in (*range(m + 2), *HUGE):
        fan = rng.choice((1, n, *(rng.randint(0, n + 1) for _ in range(6)), 2 ** 32 + 1, *HUGE))
        yield system, fan, rng.choice((0, 1, unit - 1, unit, unit, *(rng.randint(0, unit) for _ in range(8)), unit + 1, 2 ** 32, HUGE[1]))


def to_ask(data, pairs):
    """A file and what is asked of it, as tests/loading_test.c reads them."""
    return struct.pack("<I", len(data)) + data + struct.pack("<I", len(pairs)) + b"".join(struct.pack("<QQQ", *pair) for pair in pairs)


def ends_text(answer):
    return f"refused {answer.number}" if isinstance(answer, Refusal) else f"lower {answer[0]} upper {answer[1]}"


def answered(data, system, fan, p):
    """The line that tests/loading_test.c prints."""
    worth, gain = ends_text(worth_of_file(data, system, fan)), ends_text(gain_of_file(data, system, fan, p))
    return f"system {system} {rate(data, system):x} fan {fan} {worth} spare {p} {gain} unit {unit_of_file(data)}"


def largest(version):
    """A sound file of the greatest length, 724 bytes or with boards 812, and of the longest lines: all fans are sure to fail, and one that did not would
    be the end."""
    boards = Boards([fan % 5 for fan in range(64)], [UNITS[version] - 1] * 4)
    return deck_bytes(Deck([0] * 64, [1] * 64, [System(Rule(3, 63, 63), 1, 64)] * 32, version, boards))


def short_lines():
    """A file whose stretches of three stand under windows of two to five, on the line and on the ring."""
    # document 02, request 03: "A stretch of three fans under a window of four"
    systems = [System(Rule(kind, 2, r), 2, 4) for kind in (6, 7) for r in (2, 3, 4, 5, 64, 65)]
    return deck_bytes(Deck([2 ** 29] * 5, [0] * 5, systems))


def pairs():
    """A file of single pairs, over twelve fans and over three: in range, at the longest window, just out of range, exchanged; and of no kind."""
    # document 02, request 05: "a deck file carries a single pair in first and second"
    numbers = ((1, 1), (2, 3), (3, 2), (3, 3), (1, 4), (2, 5), (5, 2), (5, 10), (10, 10), (0, 5), (1, 11), (11, 11), (1, 13), (1, 65535), (65535, 1))
    systems = [System(Rule(8, *pair), *stretch) for pair in numbers for stretch in ((1, 12), (5, 7))]
    fans = [2 ** 30 - 2 ** 24 * fan for fan in range(1, 13)]
    return deck_bytes(Deck(fans, [65535] * 12, [*systems, System(Rule(9, 1, 1), 1, 12), System(Rule(8, 1, 1), 0, 12)]))


def about_units(version):
    """A file whose fans stand just below, at and just above either unit, with a system for each."""
    # document 02, request 08: "4 against the file's unit"
    fans = [unit + more for unit in sorted(set(UNITS.values())) for more in (-1, 0, 1)]
    systems = [System(Rule(1, 1, 0), fan, fan) for fan in range(1, len(fans) + 1)]
    return deck_bytes(Deck(fans, [0] * len(fans), systems, version, Boards([1] * len(fans), [UNITS[version]])))


def about_boards():
    """Files with a board at each edge of the unit and above it, of fans on it, on another and on none, rated by themselves and together."""
    # document 02, request 11: "4 for any board's survival number too"
    unit = UNITS[BOARDS_VERSION]
    systems = [System(rule, *stretch) for rule in (Rule(1, 1, 0), Rule(3, 0, 0)) for stretch in ((1, 1), (2, 2), (3, 3), (1, 3))]
    for number in edges(unit) + over(unit):
        yield deck_bytes(Deck([unit, unit - 1, unit // 3], [0] * 3, systems, BOARDS_VERSION, Boards([2, 0, 1], [unit // 2, number])))


def odd_inputs():
    """Empty input, input that stops early, and files, sound or not, with more behind them than any file has."""
    sound = next(random_files(11, 1))
    yield from (sound[:length] for length in (0, 1, 7, 19, 20, 21, len(sound) - 1))
    full, longest = largest(1), largest(BOARDS_VERSION)
    no_version, too_many, no_boards = b"\4" + longest[1:], longest[:6] + b"\x21\0" + longest[8:], longest[:20] + b"\0" + longest[21:]
    for front in (sound, full, longest, no_version, too_many, no_boards):
        yield from (front[:length] + b"\0" * (length - len(front)) for length in (723, 724, 725, 811, 812, 813, 1023, 1024, 1025, 4096, 70000))
    yield from (longest[:length] for length in (20, 27, 28))


def compare_stacks(lines):
    """The last lines of the C program: each call, and the deepest stack that it used."""
    depths = {call: int(depth) for call, depth in (line.split() for line in lines)}
    print(f"stacks of the calls: {depths}, at most {MOST_STACK} bytes")
    return max(depths.values()) <= MOST_STACK


def units_seen(lines):
    """Files of either unit and refused ones were met, by the unit that is answered."""
    met = {int(line.rpartition(" ")[2]) for line in lines}
    print(f"units met: {sorted(met)}")
    return met == {0, *UNITS.values()}


def refusals_met(lines):
    """Every refusal was met, in a rating, a worth or a gain."""
    met = {int(number) for line in lines for number in re.findall(r"refused (\d+)", line)}
    met |= {int(number, 16) for line in lines for number in re.findall(r"^system \d+ ffffffff([0-9a-f]{8}) ", line)}
    print(f"refusals met: {sorted(met)}")
    return met == REFUSALS


def kinds_answered(asked, lines):
    """Systems of every kind were answered in files of every version."""
    met = set()
    for (data, system, *_), line in zip(asked, lines, strict=True):
        if not line.split()[2].startswith("ffffffff"):
            deck = read_deck(data)
            met.add((deck.version, deck.systems[system - 1].rule.kind))
    print(f"kinds answered, by version: {len(met)}")
    return met == {(version, kind) for version in UNITS for kind in KINDS}


def compare_calls(files):
    """Every file through the C program."""
    rng = random.Random(6)
    pairs = [(data, list(asked(rng, data))) for data in files]
    said = run(static(root / "tests/loading_test.c", "loading_test"), b"".join(to_ask(*pair) for pair in pairs)).decode().splitlines()
    lines, stacks = said[:-CALLS], said[-CALLS:]
    every = [(data, *one) for data, asks in pairs for one in asks]
    good = compare_stacks(stacks) & units_seen(lines) & refusals_met(lines) & kinds_answered(every, lines)
    return good & compare(f"calls on {len(files)} files", lines, [answered(*one) for one in every])


def compare_stored():
    """The file that rt runs decklist on, and what it holds it to."""
    crate = root / "crates/decklist_program"
    return compare("decklist's stored answer", [(crate / "stdout").read_text()], [PROGRAMS["decklist"]((crate / "stdin").read_bytes())])


def main():
    ready("lib")
    prove()
    files = [short_lines(), pairs(), *map(about_units, UNITS), *about_boards(), *random_files(2026, FILES)]
    good = compare_stored() & compare_calls(files)
    inputs = [data for data in files if len(data) < SHORT][:PRINTED] + list(odd_inputs())
    for program, output in PROGRAMS.items():
        words = linked(program)
        got = mapped(lambda data: printed(words, data).decode(), inputs)
        good &= compare(f"inputs through {program}", got, [output(data) for data in inputs])
        good &= compare_samples(program, started(program), output)
    for name, output in SAMPLES.items():
        good &= compare_samples(f"the C sample {name}", static(sample(name), name), output, by_name=True)
    return 0 if good else 1


if __name__ == "__main__":
    sys.exit(main())
