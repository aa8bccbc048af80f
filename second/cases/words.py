"""Words of 64 bits: packing, the rubbish that fills lent tables, and their checksum."""

from functools import lru_cache
from operator import mul

from second.model.calls import working_table_after

WORD = 2 ** 64
FACTOR = 6364136223846793005
ADDEND = 1442695040888963407


def pack(numbers):
    """The numbers as unsigned 64-bit little-endian words."""
    return b"".join(number.to_bytes(8, "little") for number in numbers)


@lru_cache(maxsize=None)
def rubbish_run(seed, count):
    cells, x = [], seed
    for _ in range(count):
        x = (x * FACTOR + ADDEND) % WORD
        cells.append(x)
    return cells


def rubbish(seed, *counts):
    """One list of cells for each count, all filled from a single run of the generator."""
    # Runs of one length are shared between cases, which use few seeds.
    cells = rubbish_run(seed, 8192)
    if sum(counts) > len(cells):
        raise ValueError("more rubbish asked for than is kept")
    ends = [sum(counts[:place + 1]) for place in range(len(counts))]
    return [cells[end - count:end] for end, count in zip(ends, counts)]


def checksum(cells):
    """The sum of (i + 1) * cell i, modulo 2^64."""
    return sum(map(mul, range(1, len(cells) + 1), cells)) % WORD


@lru_cache(maxsize=None)
def checksum_after(seed, room, accepted):
    """That of a working table after a call; there are few seeds and lengths of it."""
    table, = rubbish(seed, room)
    return checksum(working_table_after(table, accepted))
