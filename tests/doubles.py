"""The office's calls over doubles against the second program, bit for bit.

Out: 600 random deck files of every version, sound and damaged, and the samples; each is asked for its systems and for some that it does not have, by both calls. The
call for every version is also asked for 5,952 systems of one fan each, whose figure is the fan's own number, at the ends of both units, near the powers of two
and at random. In: every edge of the doubles, the grid's points and their neighbours, one fan each; 2,000 random lists under every kind; and 1,280 with every
choice of things wrong, so that the order of the refusals shows. A C program linked with libfoambeetle_office.a makes the calls, with guard pages on either side
of what it lends.
"""

import random
import struct
import subprocess
import sys

from second.model.deck_file import deck_bytes, read_deck
from second.model.doubles import bits_of, chance, chance_between, planned
from second.model.loading import packed
from second.model.terms import BOARDS_VERSION, MOST_SYSTEMS, NO_BOARDS, UNITS, Boards, Deck, Refusal, Rule, System
from second.samples.doubles import CHANCES, NO_CHANCES, about_grid, grid_points, random_plan, wrong_plans
from second.samples.files import random_files
from tests.common import OFFICE, compare, decks, ready, root, run, sample, static

FILES, LISTS, WRONG, GRID, SINGLES = 600, 2000, 1280, 500, 60
HUGE = (2 ** 32 + 1, 2 ** 63, 2 ** 64 - 1)
OUT, IN, BETWEEN = 0, 1, 2
NO_SUCH_SYSTEM = 14


def files():
    """Deck files, and the systems that are asked for."""
    for data in (*(deck.read_bytes() for deck in decks()), *random_files(61, FILES)):
        count = min(int.from_bytes(data[6:8], "little"), 33) if len(data) >= 8 else 1
        yield data, (*range(count + 2), *HUGE)


def singles():
    """Files of 32 fans, each with a system of its own that fails if it does."""
    rng = random.Random(63)
    systems = [System(Rule(1, 1, 0), fan, fan) for fan in range(1, MOST_SYSTEMS + 1)]
    for version, unit in UNITS.items():
        powers = [2 ** power + beside for power in range(31) for beside in (-1, 0, 1) if 2 ** power + beside <= unit]
        numbers = [*powers, unit, unit - 1, *(rng.randint(0, unit) for _ in range(SINGLES * MOST_SYSTEMS))]
        for at in range(0, len(numbers) - MOST_SYSTEMS + 1, MOST_SYSTEMS):
            fans = numbers[at:at + MOST_SYSTEMS]
            boards = Boards([0] * MOST_SYSTEMS, [unit]) if version == BOARDS_VERSION else NO_BOARDS
            yield deck_bytes(Deck(fans, [0] * MOST_SYSTEMS, systems, version, boards)), range(1, MOST_SYSTEMS + 1)


def to_tell(data, systems, what=OUT):
    """A file as tests/doubles_test.c reads it."""
    return struct.pack(f"<QI{len(data)}sI{len(systems)}Q", what, len(data), data, len(systems), *systems)


def told(data, system, call=chance):
    """The line that tests/doubles_test.c prints."""
    answer = call(data, system)
    if isinstance(answer, Refusal):
        return f"system {system} refused {answer.number}"
    return f"system {system} " + " ".join(f"{bits_of(float(end)):016x}" for end in answer)


def single(rng):
    """One fan under the rule that it may not fail: low is the whole number just below its chance, high the one just above."""
    near = [bits for whole in grid_points(rng, GRID) for bits in about_grid(whole)]
    for bits in (*CHANCES, *NO_CHANCES, *near):
        yield Rule(1, 1, 0), 1, 1, [bits], []
        yield Rule(3, 0, 0), 1, 1, [bits], []  # answered on the grid alone
        yield Rule(1, 1, 0), 2, 2, [NO_CHANCES[-1], bits, NO_CHANCES[0]], []  # what stands beside it is not read


def plans():
    rng = random.Random(62)
    yield from single(rng)
    yield from (random_plan(rng) for _ in range(LISTS))
    yield from wrong_plans(rng, WRONG)


def to_rate(rule, a, b, doubles, weights):
    """What is asked, as tests/doubles_test.c reads it."""
    more, n, w = len(rule.more), len(doubles), len(weights)
    return struct.pack(f"<6Q3I{more}Q{n}Q{w}H", IN, *rule.numbers, a, b, more, n, w, *rule.more, *doubles, *weights)


def printed(data):
    """What samples/chance.c prints of a file."""
    refusal = chance(data, 0).number
    if refusal != NO_SUCH_SYSTEM:
        return f"file refused {refusal}\n"
    answers = [(system, chance(data, system)) for system in range(1, len(read_deck(data).systems) + 1)]
    return "".join(f"system {system} " + (f"refused {ends.number}" if isinstance(ends, Refusal) else "from {:.17g} to {:.17g}".format(*map(float, ends)))
                   + "\n" for system, ends in answers)


def samples_agree():
    """The two C samples, built with the archive; the deck files are told by their names."""
    program = static(sample("chance"), "chance_static", OFFICE)
    got = [subprocess.run([*program, deck], stdout=subprocess.PIPE).stdout.decode() for deck in decks()]
    good = compare("samples through chance", got, [printed(deck.read_bytes()) for deck in decks()])
    low, high = planned(Rule(4, 2, 0), 1, 6, [bits_of(number) for number in (0.985,) * 4 + (0.998,) * 2], [])
    return good & compare("the list of plan", [run(static(sample("plan"), "plan_static", OFFICE)).decode()], [f"low {low} high {high}\n"])


def refused(line):
    return int(line[8:], 16) if line.startswith("ffffffff") else None


def main():
    ready("lib")
    lent, asked = list(files()), list(plans())
    program = static(root / "tests/doubles_test.c", "doubles_test", OFFICE)
    out = run(program, b"".join(to_tell(*one) for one in lent)).decode().splitlines()
    good = compare("chances through the office's call", out, [told(data, system) for data, systems in lent for system in systems])
    lent += singles()
    about = run(program, b"".join(to_tell(*one, BETWEEN) for one in lent)).decode().splitlines()
    wanted = [told(data, system, chance_between) for data, systems in lent for system in systems]
    good &= compare("chances between two doubles", about, wanted)
    said = run(program, b"".join(to_rate(*one) for one in asked)).decode().splitlines()
    good &= compare("ratings asked in doubles", said, [f"{packed(planned(*one)):x}" for one in asked])
    met = [{int(line.split("refused ")[1]) if "refused" in line else 0 for line in lines} for lines in (out, about)]
    met.append({refused(line) or 0 for line in said})
    print(f"refusals met: {', '.join(str(sorted(numbers)) for numbers in met)}")
    of_files = {0, 1, 2, 3, 4, 5, 6, 10, 11, 12, 13, 14}
    good &= met[0] >= of_files and met[1] >= of_files | {20, 21} and met[2] == {0, 1, 2, 3, 5, 6, 18, 19}
    return 0 if good & samples_agree() else 1


if __name__ == "__main__":
    sys.exit(main())
