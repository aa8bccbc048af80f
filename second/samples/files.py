"""Deck files to try the readers on: sound ones and damaged ones, at random."""

import random

from second.model.deck_file import deck_bytes, number_at
from second.model.terms import BOARDS_HEADER_BYTES, BOARDS_VERSION, HEADER_BYTES, KINDS, MOST_BOARDS, NO_BOARDS, NO_KIND, UNITS, Boards, Deck, Rule, System
from second.samples.lists import WITHOUT_BOARDS, over, random_boards, random_rule, random_stretch, random_survivals, random_weights

# Place and size of each header field, document 01, 'Deck file and printing'; those that document 02's request 11 adds
HEADER_FIELDS = ((0, 2), (2, 2), (4, 2), (6, 2), (8, 4), (12, 4), (16, 4))
BOARD_FIELDS = ((20, 4), (24, 4))
VERSIONS = tuple(UNITS)
LONG_LIST = 16  # a list of more fans than this that is behind boards has few systems: each is rated for every set of failed boards


def sound_system(rng, n, weights):
    """A system that is rated unless its stretch leaves its kind no rule at all."""
    a, b = random_stretch(rng, n)
    kind = rng.choice(KINDS)
    rule = random_rule(rng, kind, b - a + 1, sum(weights[a - 1:b]))
    return System(rule or Rule(1, 1, 0), a, b)


def spoilt_system(rng, n, system):
    """The system with one thing wrong: its kind, its stretch or its rule."""
    rule, a, b = system
    length = b - a + 1
    manner = rng.randrange(3)
    if manner == 0:
        return System(rule._replace(kind=rng.choice((0, NO_KIND, NO_KIND + 1, 65535))), a, b)
    if manner == 1:
        return System(rule, *rng.choice(((0, b), (b, b - 1), (a, n + 1), (65535, 65535), (0, 0))))
    wrong = rng.choice((
        rule._replace(first=rng.choice((0, length + 1, 121, 65535))),
        rule._replace(second=rng.choice((1, 11, length + 1, 65535))),
    ))
    return System(wrong, a, b)


def deck_boards(rng, version, n):
    """The boards of a sound file, where its version has them; a survival number of theirs may be above the unit."""
    if version != BOARDS_VERSION:
        return NO_BOARDS
    boards = random_boards(rng, n)
    if rng.random() < 0.1:
        boards.survivals[rng.randrange(len(boards.survivals))] = rng.choice(over(UNITS[version]))
    return boards


def random_deck(rng, version=None):
    """A deck whose file is sound; some of its systems are to be refused."""
    n = rng.choice((1, 2, 3, 64, rng.randint(1, 12), rng.randint(1, 12), rng.randint(1, 64)))
    version = version or rng.choice(VERSIONS)
    unit = UNITS[version]
    survivals, weights = random_survivals(rng, n, unit), random_weights(rng, n)
    if rng.random() < 0.15:
        survivals[rng.randrange(n)] = rng.choice(over(unit))
    if rng.random() < 0.4:
        weights[rng.randrange(n)] += rng.choice((1, 60, 121, 65000))
    counts = (1, 2) if version == BOARDS_VERSION and n > LONG_LIST else (1, 2, 3, 4, 8, 32)
    systems = [sound_system(rng, n, weights) for _ in range(rng.choice(counts))]
    systems = [system if rng.random() < 0.7 else spoilt_system(rng, n, system) for system in systems]
    return Deck(survivals, weights, systems, version, deck_boards(rng, version, n))


def header_fields(data):
    return HEADER_FIELDS + (BOARD_FIELDS if number_at(data, 0, 2) == BOARDS_VERSION else ())


def with_field(data, at, size, number):
    return data[:at] + (number % 256 ** size).to_bytes(size, "little") + data[at + size:]


def field_off_by_one(rng, data):
    """A header's number just beside what it was; its version just beside those that there are."""
    at, size = rng.choice(header_fields(data))
    number = number_at(data, at, size)
    return with_field(data, at, size, rng.choice((min(VERSIONS) - 1, max(VERSIONS) + 1) if at == 0 else (number - 1, number + 1)))


def field_at_random(rng, data):
    at, size = rng.choice(header_fields(data))
    return with_field(data, at, size, number_at(data, at, size) + rng.randint(1, 256 ** size - 1))


def one_bit_of_header(rng, data):
    length = BOARDS_HEADER_BYTES if number_at(data, 0, 2) == BOARDS_VERSION else HEADER_BYTES
    at, bit = rng.randrange(length), rng.randrange(8)
    return data[:at] + bytes([data[at] ^ 1 << bit]) + data[at + 1:]


def cut_short(rng, data):
    return data[:rng.choice((0, 1, 19, 20, 27, 28, len(data) - 1, rng.randrange(len(data))))]


def run_on(rng, data):
    return data + bytes(rng.randrange(256) for _ in range(rng.choice((1, 2, 9, 10, 20))))


def wrong_version(rng, data):
    return with_field(data, 0, 2, rng.choice((0, 4, 256, 257, 512, 768, 65535)))


def another_version(rng, data):
    """A file with boards called one without them, or the other way round."""
    return with_field(data, 0, 2, rng.choice(WITHOUT_BOARDS) if number_at(data, 0, 2) == BOARDS_VERSION else BOARDS_VERSION)


def zero_field_set(rng, data):
    return with_field(data, 2, 2, rng.choice((1, 256, 65535)))


def wrong_count(rng, data):
    """A header whose n or m is out of range, the rest as it was."""
    at, number = rng.choice(((4, 0), (4, 65), (4, 65535), (6, 0), (6, 33), (6, 65535)))
    return with_field(data, at, 2, number)


def laid_out_wrong_count(rng, data):
    """A file that is laid out as its counts say, with a count out of range."""
    n, m = rng.choice(((0, 1), (65, 1), (70, 2), (1, 0), (3, 33), (0, 0), (65, 33), (64, 33)))
    survivals, weights = random_survivals(rng, n), [1] * n
    return deck_bytes(Deck(survivals, weights, [System(Rule(1, 1, 0), 1, 1)] * m, rng.choice(VERSIONS), Boards([1] * n, [7])))


def behind_boards(rng, data):
    """The file, or another that has boards."""
    return data if number_at(data, 0, 2) == BOARDS_VERSION else deck_bytes(random_deck(rng, BOARDS_VERSION))


def wrong_boards(rng, data):
    """A header whose g is out of range, the rest as it was."""
    return with_field(behind_boards(rng, data), 20, 4, rng.choice((0, MOST_BOARDS + 1, 2 ** 8 + 1, 2 ** 16 + 1, 2 ** 32 - 1)))


def laid_out_wrong_boards(rng, data):
    """A file that is laid out as its counts say, with no boards or too many, and nothing else wrong or more systems than there may be too."""
    n, g, m = rng.randint(1, 9), rng.choice((0, MOST_BOARDS + 1, 9)), rng.choice((1, 1, 1, 33))
    boards = Boards([rng.randint(0, g) for _ in range(n)], [7] * g)
    return deck_bytes(Deck(random_survivals(rng, n), [1] * n, [System(Rule(1, 1, 0), 1, 1)] * m, BOARDS_VERSION, boards))


def wrong_board(rng, data):
    """A board number just above g, or far above it."""
    data = behind_boards(rng, data)
    n, g = number_at(data, 4, 2), number_at(data, 20, 4)
    return with_field(data, BOARDS_HEADER_BYTES + 6 * n + rng.randrange(n), 1, rng.choice((g + 1, g + 1, 5, 255)))


def two_damages(rng, data):
    """Two damages at once, so that the order of the checks shows."""
    damages = (field_off_by_one, field_at_random, wrong_version, zero_field_set, wrong_count, run_on)
    for damage in rng.sample(damages, 2):
        data = damage(rng, data)
    return data


def two_damages_to_boards(rng, data):
    """The same about boards: board numbers above g, a g out of range, and any of the others."""
    data = wrong_board(rng, data)
    for damage in rng.sample((wrong_boards, wrong_count, zero_field_set, run_on, field_off_by_one), rng.choice((1, 2))):
        data = damage(rng, data)
    return data


DAMAGES = (field_off_by_one, field_at_random, one_bit_of_header, cut_short, run_on, wrong_version, another_version,
           zero_field_set, wrong_count, laid_out_wrong_count, wrong_boards, laid_out_wrong_boards, wrong_board, two_damages, two_damages_to_boards)


def random_files(seed, count):
    """Bytes of deck files, a sound one and a damaged one by turns, the sound one first."""
    rng = random.Random(seed)
    for place in range(count):
        data = deck_bytes(random_deck(rng))
        if place % 2:
            data = DAMAGES[place // 2 % len(DAMAGES)](rng, data)
        yield data
