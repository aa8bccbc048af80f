"""Checks of the second program's mending by other ways: a file is damaged by hand, so what it must come back as is known; refusals worked one by one.

Each group yields pairs: what was found, and what it must equal.
"""

import random

from second.model.deck_file import deck_bytes, file_refusal, number_at, read_deck
from second.model.mending import Change, Mended, deckmend_output, mend
from second.model.terms import BOARDS_VERSION, UNITS, Boards, Deck, Refusal, Rule, System
from second.samples.files import DAMAGES, random_deck, with_field
from second.samples.published import DECK_FILE

OFFSETS = {1: (8, 12, 16), 2: (8, 12, 16), BOARDS_VERSION: (8, 12, 16, 24)}  # where a header has each offset
HEADERS = {1: 20, 2: 20, BOARDS_VERSION: 28}


def small(version, n=3, g=2, m=2):
    """A small sound file."""
    boards = Boards([place % (g + 1) for place in range(n)], [7] * g)
    return deck_bytes(Deck([5] * n, [1] * n, [System(Rule(1, 1, 0), 1, n)] * m, version, boards))


def mendable_places(version):
    """The bytes of a header that mending may change: the zero field's and the offsets'."""
    return [2, 3, *(at + byte for at in OFFSETS[version] for byte in range(4))]


def sound_files_stay():
    """A sound file comes back the same, with an empty list and nothing cut."""
    rng = random.Random(141)
    for _ in range(300):
        data = deck_bytes(random_deck(rng))
        yield mend(data), Mended(data, [], 0)
    yield mend(DECK_FILE), Mended(DECK_FILE, [], 0)


def damages_undone():
    """Any bytes of the zero field and the offsets overwritten, and bytes put behind: the sound file comes back, with what was overwritten listed in order."""
    rng = random.Random(142)
    for place in range(900):
        sound = deck_bytes(random_deck(rng))
        places = mendable_places(number_at(sound, 0, 2))
        hit = {at: rng.randrange(256) for at in rng.sample(places, place % (len(places) + 1))}
        behind = rng.randbytes(rng.choice((0, 0, 1, 2, 9, 10, 11, 500, 3000)))
        damaged = bytes(hit.get(at, byte) for at, byte in enumerate(sound)) + behind
        listed = [Change(at, hit[at], sound[at]) for at in sorted(hit) if hit[at] != sound[at]]
        yield mend(damaged), Mended(sound, listed, len(behind))


def every_byte_of_small_headers():
    """Each byte of a header set to each value: where the version and the counts are still those, the sound file comes back."""
    for version in UNITS:
        sound = small(version)
        for at in range(HEADERS[version]):
            for value in range(256):
                damaged = sound[:at] + bytes([value]) + sound[at + 1:]
                if value == sound[at]:
                    yield mend(damaged), Mended(sound, [], 0)
                elif at in mendable_places(version):
                    yield mend(damaged), Mended(sound, [Change(at, value, sound[at])], 0)
                else:
                    # another version or other counts: never the sound file with a list
                    mended = mend(damaged)
                    yield isinstance(mended, Refusal) or mended.data != sound, True


def bodies_kept():
    """Whatever the damage: what follows the header is the file's own, and so are version and counts; what is written passes 10 to 13, and mending it again
    changes nothing."""
    rng, seen = random.Random(143), set()
    for place in range(1500):
        data = DAMAGES[place % len(DAMAGES)](rng, deck_bytes(random_deck(rng)))
        mended = mend(data)
        if isinstance(mended, Refusal):
            seen.add(mended.number)
            continue
        head = HEADERS[number_at(data, 0, 2)]
        yield mended.data[head:] + data[len(mended.data):], data[head:]
        yield mended.data[:2] + mended.data[4:8] + mended.data[20:24], data[:2] + data[4:8] + data[20:24]
        yield file_refusal(mended.data) in (None, 21), True
        yield mend(mended.data), Mended(mended.data, [], 0)
        yield sorted({change.place for change in mended.changes} - set(mendable_places(number_at(data, 0, 2)))), []
    yield seen, {2, 10, 11, 12, 20, 22}


def boards_not_judged():
    """A fan's board above g is no affair of mending's: the file comes back as it is, and is refused 21 by who reads it."""
    sound = small(BOARDS_VERSION)
    wrong = with_field(sound, 28 + 6 * 3, 1, 9)
    yield mend(wrong), Mended(wrong, [], 0)
    yield mend(with_field(wrong, 2, 2, 1)), Mended(wrong, [Change(2, 1, 0)], 0)
    yield read_deck(wrong), Refusal(21)


def refusals_of_mending():
    """Cut files, and two faults at once, so that the order shows."""
    for version in UNITS:
        sound = small(version)
        for length in range(len(sound)):
            yield mend(sound[:length]), Refusal(10 if length < 20 or length < HEADERS[version] else 22)
        yield mend(with_field(sound, 0, 2, 4)), Refusal(11)
        yield mend(with_field(sound, 0, 2, 0)[:20]), Refusal(11)
        for fans in (0, 65, 65535):
            yield mend(with_field(sound, 4, 2, fans)), Refusal(2)
            yield mend(with_field(with_field(sound, 4, 2, fans), 6, 2, 0)), Refusal(2)
        for systems in (0, 33, 65535):
            yield mend(with_field(sound, 6, 2, systems)), Refusal(12)
        yield mend(with_field(sound, 6, 2, 33)[:-1]), Refusal(12)
        yield mend(with_field(sound, 6, 2, 3)), Refusal(22)
        yield mend(with_field(sound, 6, 2, 1)).cut, 10
        yield mend(with_field(sound, 4, 2, 64)), Refusal(22)
    boarded = small(BOARDS_VERSION)
    for g in (0, 5, 256, 2 ** 32 - 1):
        yield mend(with_field(boarded, 20, 4, g)), Refusal(20)
        yield mend(with_field(with_field(boarded, 20, 4, g), 6, 2, 33)), Refusal(12)
        yield mend(with_field(boarded, 20, 4, g)[:-1]), Refusal(20)
    yield mend(small(1)[:20]), Refusal(22)
    yield mend(with_field(small(1), 0, 2, 3)[:27]), Refusal(10)


def mending_told():
    """What deckmend writes."""
    yield deckmend_output(DECK_FILE), (DECK_FILE, "cut 0\n")
    damaged = with_field(with_field(DECK_FILE, 2, 2, 261), 16, 4, 0) + b"abc"
    yield deckmend_output(damaged), (DECK_FILE, "byte 2 was 5 is 0\nbyte 3 was 1 is 0\nbyte 16 was 0 is 38\ncut 3\n")
    yield deckmend_output(DECK_FILE[:-1]), (b"", "file refused 22\n")


GROUPS = (sound_files_stay, damages_undone, every_byte_of_small_headers, bodies_kept, boards_not_judged, refusals_of_mending, mending_told)
