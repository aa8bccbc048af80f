"""deckmake and deckshow against the second program: what they write and what they say, byte for byte.

Texts with a slip at every place of the grammar and a number at every edge, in each version; other blanks and line ends; bytes that are no text; long words
and long lines, lines across the end of the buffer, a million lines, a hundred thousand faulty ones; input in pieces; lines at random. Random decks go there and
back, in deckshow's words and in others: deckmake makes the same file of what deckshow shows. The texts of samples/ make its deck files.
"""

import random
import sys

from second.model.deck_file import deck_bytes, file_refusal
from second.model.terms import UNITS, Boards, Deck, Rule, System
from second.samples.files import random_deck, random_files
from second.samples.typed import SOUND, across, layouts, long_lines, long_words, many_lines, named, no_text, numbers, other_words, random_lines, several, slips
from tests.common import MAKER, PROGRAMS, SHOWER, WRITING, compare, compare_written, decks, fed, linked, mapped, printed, run, texts, written

DECKS = 25  # of each version
FILES = 60
RANDOM = 15  # texts of each version
PIECES = 1, 7, 4096, 131071  # bytes


def by_version(make_lines):
    """Lines as texts of each version."""
    return [text for version in UNITS for text in several(version, make_lines(version))]


def random_texts(rng):
    return [text for version in UNITS for _ in range(RANDOM) for text in several(version, random_lines(rng))]


def same_deck(words, version):
    """The sound text in other blanks, line ends and comments: each makes the deck that it makes."""
    inputs = list(layouts(SOUND[version]))
    wanted = WRITING[MAKER](SOUND[version])
    return compare(f"a text of version {version} laid out otherwise", mapped(lambda text: written(words, text), inputs), [wanted] * len(inputs))


def in_pieces(words):
    """A pipe that is filled piece by piece, a text of several buffers among them."""
    cases = [(text, piece) for text in (*SOUND.values(), b"fan x\r\nfan", b"") for piece in PIECES]
    cases += [(b"# a comment\n" * 30000 + SOUND[3], piece) for piece in PIECES[2:]]
    got = [fed(words, *case) for case in cases]
    return compare("texts in pieces", got, [WRITING[MAKER](text) for text, _ in cases])


def odd_systems():
    """Decks whose systems are of no kind, off the deck, out of range or with a second number for which there are no words; and numbers above the unit."""
    rules = [Rule(kind, first, second) for kind in (*range(11), 65535) for first, second in ((0, 0), (1, 0), (2, 3), (65535, 65535))]
    stretches = ((1, 3), (0, 3), (1, 2), (3, 1), (4, 4), (65535, 65535), (0, 0))
    for version in UNITS:
        for at in range(0, len(rules), 16):
            systems = [System(rule, *stretches[place % len(stretches)]) for place, rule in enumerate(rules[at:at + 16] * 2)]
            yield Deck([0, UNITS[version], 2 ** 32 - 1], [0, 1, 65535], systems, version, Boards([0, 1, 2], [UNITS[version] + 1, 2 ** 32 - 1]))


def there_and_back(rng, make_words, show_words):
    """Sound files: what deckshow shows of each, what deckmake makes of that and says of it, and what it makes of the deck in other words."""
    listed = [random_deck(rng, version) for version in UNITS for _ in range(DECKS)] + list(odd_systems())
    files = [deck_bytes(deck) for deck in listed]
    shown = mapped(lambda data: run(show_words, data), files)
    back = mapped(lambda text: written(make_words, text), shown)
    said = [WRITING[MAKER](text) for text in shown]
    others = [other_words(rng, deck) for deck in listed]
    good = compare("decks shown", [text.decode() for text in shown], [PROGRAMS[SHOWER](data) for data in files])
    good &= compare("files made of what is shown", [data for data, _ in back], files)
    good &= compare("what is said of them", back, said)
    good &= compare("decks in other words", mapped(lambda text: written(make_words, text), others), said)
    print(f"systems warned of: {sum(warnings.count(chr(10)) for _, warnings in said)}")
    return good


def damaged_files(words):
    """Sound and damaged files through deckshow."""
    files = list(random_files(1601, FILES))
    print(f"refused files: {sum(map(bool, map(file_refusal, files)))}")
    return compare("files through deckshow", mapped(lambda data: printed(words, data).decode(), files), [PROGRAMS[SHOWER](data) for data in files])


def samples_made(words):
    """Each sample deck is what deckmake makes of its text, without a word where all its systems are answered."""
    made = {text.with_suffix(".deck").name: written(words, text.read_bytes()) for text in texts()}
    stored = {deck.name: deck.read_bytes() for deck in decks()}
    return compare("sample decks", [sorted(made), *(data for data, _ in made.values())], [sorted(stored), *(stored.get(name) for name in made)])


def main():
    maker, shower = linked(MAKER), linked(SHOWER)
    rng = random.Random(16)
    good = samples_made(maker) & in_pieces(maker)
    for version in UNITS:
        good &= same_deck(maker, version)
    for what, inputs in (
        ("slips", by_version(slips)), ("numbers", by_version(numbers)), ("counts, boards and versions", [text for version in UNITS for text in named(version)]),
        ("bytes that are no text", no_text()), ("long words", long_words()), ("long lines", long_lines()), ("lines across the buffer's end", across()),
        ("very many lines", many_lines()), ("lines at random", random_texts(rng)),
    ):
        good &= compare_written(what, MAKER, maker, list(inputs))
    return 0 if good & there_and_back(rng, maker, shower) & damaged_files(shower) else 1


if __name__ == "__main__":
    sys.exit(main())
