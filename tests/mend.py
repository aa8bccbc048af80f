"""deckmend against the second program: what it writes and what it says.

Every byte of a header set to 0, to 255, to one more, to one less and with each bit changed, in each version; headers with several bytes damaged, the files whole,
cut or too long; files cut at every length; 1 to 100,000 bytes behind a file; sound and damaged files at random; input in pieces; and a file with far more
behind it. Each is a process of its own, so there are not more; second/checks tries every byte and value of the second program.
"""

import random
import sys

from second.model.deck_file import deck_bytes
from second.model.mending import deckmend_output, mend
from second.model.terms import BOARDS_VERSION, UNITS, Boards, Deck, Rule, System
from second.samples.files import random_deck, random_files, with_field
from tests.common import MENDER, compare, compare_written, fed, linked, written

HEADERS = {version: 28 if version == BOARDS_VERSION else 20 for version in UNITS}
SEVERAL = 500
FILES = 300
BEHIND = 100000
BORDERS = 1024, 5120, 9216  # where the program's buffer ends, and the pieces by which it counts what is behind
PIECE = 100
MUCH = 20_000_000  # bytes behind a file


def sound(version, n=3, m=2, g=2):
    boards = Boards([place % (g + 1) for place in range(n)], [5] * g)
    return deck_bytes(Deck([7] * n, [1] * n, [System(Rule(1, 1, 0), 1, n)] * m, version, boards))


def longest(version):
    return sound(version, 64, 32, 4)


def single_bytes():
    """Every byte of a header set to the ends of its range, beside what it was, and with each bit changed."""
    for version in UNITS:
        data = sound(version)
        for at in range(HEADERS[version]):
            values = {0, 255, (data[at] + 1) % 256, (data[at] - 1) % 256, *(data[at] ^ 1 << bit for bit in range(8))} - {data[at]}
            yield from (data[:at] + bytes([value]) + data[at + 1:] for value in sorted(values))


def several_bytes():
    """Headers with two to all of their bytes overwritten, most often bytes that mending sets right."""
    rng = random.Random(1401)
    for place in range(SEVERAL):
        version = rng.choice(tuple(UNITS))
        data = bytearray(deck_bytes(random_deck(rng, version)))
        spared = () if place % 5 == 0 else (0, 1, 4, 5, 6, 7, 20, 21, 22, 23)
        places = [at for at in range(HEADERS[version]) if at not in spared]
        for at in rng.sample(places, rng.randint(2, len(places))):
            data[at] = rng.choice((0, 1, 255, rng.randrange(256)))
        yield (bytes(data), bytes(data) + rng.randbytes(rng.randint(1, 2000)), bytes(data[:rng.randrange(len(data))]))[place % 3]


def cut_files():
    """Files cut at every length, sound, and damaged in one of two places by turns; the longest ones near their header's end and their own."""
    for version in UNITS:
        data = sound(version)
        damaged = with_field(data, 2, 2, 257), with_field(data, 8, 4, 2 ** 32 - 1)
        yield from (front[:length] for length in range(len(data) + 1) for front in (data, damaged[length % 2]))
        data = longest(version)
        yield from (data[:length] for length in (*range(HEADERS[version] - 2, HEADERS[version] + 2), *range(len(data) - 12, len(data) + 1)))


def run_on():
    """From 1 to 100,000 bytes behind a file; and files that end about each border."""
    rng = random.Random(1402)
    anywhere = (rng.randint(1, BEHIND) for _ in range(20))
    for place, length in enumerate((*range(1, 30), *range(100, 1400, 37), 65536, *anywhere, BEHIND)):
        version = tuple(UNITS)[place % len(UNITS)]
        data = longest(version) if place % 4 == 0 else sound(version)
        yield (data, with_field(data, 16, 4, length))[place % 2] + rng.randbytes(length)
    yield from (longest(version) + b"\0" * BEHIND for version in UNITS)
    for data in (make(version) for version in UNITS for make in (sound, longest)):
        yield from (data + rng.randbytes(border + more - len(data)) for border in BORDERS for more in (-1, 0, 1))


def in_pieces(words):
    """A pipe that is filled piece by piece."""
    inputs = [with_field(longest(version), 2, 2, 9) + b"x" * more for version in UNITS for more in (0, 500)]
    return compare("inputs in pieces", [fed(words, data, PIECE) for data in inputs], [deckmend_output(data) for data in inputs])


def much_behind(words):
    """More behind a file than is worth comparing byte by byte."""
    data = with_field(sound(1), 2, 2, 1)
    out, said = written(words, data + bytes(MUCH))
    return compare(f"a file with {MUCH} bytes behind it", [(out, said)], [(mend(data).data, f"byte 2 was 1 is 0\ncut {MUCH}\n")])


def main():
    words = linked(MENDER)
    good = True
    for what, inputs in (
        ("headers with one byte damaged", single_bytes()), ("headers with several", several_bytes()), ("cut files", cut_files()),
        ("files run on", run_on()), ("files at random", random_files(1403, FILES)),
    ):
        good &= compare_written(what, MENDER, words, list(inputs))
    return 0 if good & in_pieces(words) & much_behind(words) else 1


if __name__ == "__main__":
    sys.exit(main())
