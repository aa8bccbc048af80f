"""Streams of deck files to try the season report on: named ones, each for a sentence of document 02's request 13, and random ones."""

import random

from second.model.deck_file import deck_bytes
from second.model.season import MOST_FILES
from second.model.terms import NO_KIND, PAIRS_KIND, UNITS, Boards, Deck, Rule, System
from second.samples.files import DAMAGES, random_deck

HALF = 2  # of either unit the half is a whole number


def single_fan(low, version, kind=1, first=1, second=0, systems=1):
    """A file of one fan whose systems have that low, and high, under kind 1."""
    boards = Boards([0], [UNITS[version]])
    return deck_bytes(Deck([low], [1], [System(Rule(kind, first, second), 1, 1)] * systems, version, boards))


def ties():
    """Equal lows within a unit and across units, in either order, and lows that their plain numbers would order the other way."""
    binary, decimal = UNITS[1], UNITS[2]
    halves = [single_fan(UNITS[version] // HALF, version) for version in UNITS]
    yield from (one + other for one in halves for other in halves)
    # 500,000,001 of 10^9 is more than 536,870,912 of 2^30, and 536,870,911 of 2^30 less than 500,000,000 of 10^9
    near = [(decimal // HALF + 1, 2), (binary // HALF, 1), (binary // HALF - 1, 1), (decimal // HALF, 2), (decimal // HALF - 1, 3)]
    yield from (single_fan(*one) + single_fan(*other) for one in near for other in near)
    yield single_fan(0, 1) + single_fan(0, 2) + single_fan(0, 3)
    yield single_fan(binary, 1, systems=3) + single_fan(decimal, 2, systems=2)


def no_kinds():
    """Kinds that there are not, alone and beside one that there is."""
    systems = [System(Rule(kind, 1, 0), 1, 1) for kind in (0, NO_KIND, 65535, 1, PAIRS_KIND, NO_KIND + 1)]
    for version in UNITS:
        yield deck_bytes(Deck([1], [0], systems, version, Boards([1], [UNITS[version]])))


def refused_between():
    """Sound files, one that is refused by each number, and sound ones behind it, which are not read."""
    sound = single_fan(7, 1) + single_fan(3, 2)
    boarded = single_fan(5, 3)
    damaged = (
        b"\0" * 20, b"\4" + sound[1:], sound[:2] + b"\1" + sound[3:], sound[:4] + b"\0" + sound[5:], sound[:6] + b"\x21" + sound[7:],
        sound[:8] + b"\0" + sound[9:], boarded[:20] + b"\5" + boarded[21:], boarded[:24] + b"\0" + boarded[25:], boarded[:34] + b"\2" + boarded[35:],
    )
    yield from (sound + wrong + single_fan(1, 1) for wrong in damaged)


def ends_early():
    """The input ends at each place of the second file."""
    for version in UNITS:
        first, second = single_fan(UNITS[version] // 3, version), single_fan(1, version)
        yield from (first + second[:length] for length in range(len(second) + 1))


def many_files():
    """The most files that are read, and bytes behind them; the last of them refused; one fewer."""
    one, other, wrong = single_fan(UNITS[1] // 3, 1), single_fan(UNITS[2] // 4, 2), b"\4" + single_fan(1, 1)[1:]
    full = (one + other) * (MOST_FILES // 2)
    yield from (full, full + one, full + b"\0", full + wrong, full[:-len(other)] + wrong[:20], full[:-len(other)] + wrong, full[:-len(other)], full[:-1])


def named():
    yield b""
    yield from ties()
    yield from no_kinds()
    yield from refused_between()
    yield from ends_early()


def random_stream(rng):
    """A few random files, now and then one that is damaged, and what may follow."""
    files = [deck_bytes(random_deck(rng)) for _ in range(rng.choice((0, 1, 2, 3, 5)))]
    if rng.random() < 0.4:
        place = rng.randint(0, len(files))
        files.insert(place, rng.choice(DAMAGES)(rng, deck_bytes(random_deck(rng))))
    return b"".join(files)


def random_streams(seed, count):
    rng = random.Random(seed)
    return (random_stream(rng) for _ in range(count))
