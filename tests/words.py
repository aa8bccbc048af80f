"""Refusals in words: decklist --words and deckworth --words against the second program, and each remedy tried: the refusal goes.

Every cause of every refusal of a system stands in a deck of its own. The test reads what the program says of it, does that, and rates the deck again.
"""

import re
import subprocess
import sys

from second.model.causes import worded_output, worded_worths
from second.model.deck_file import deck_bytes, read_deck
from second.model.loading import decklist_output
from second.model.terms import MOST_FANS, MOST_SYSTEMS, UNITS, Boards, Deck, Refusal, Rule, System
from second.samples.files import random_files
from tests.common import compare, held, linked, mapped, prove

SEED, FILES, FILES_OF_WORTHS = 17, 600, 100
N = 12
BROKEN = tuple(Rule(kind, first, second) for kind in range(1, 9) for first in (0, 1, 2, 3, N, N + 1, 65535) for second in (0, 1, 2, 4, 10, 11, N, N + 1, 64, 65, 65535))


def plain_deck(rule, a=1, b=N, survival=500, weight=1, version=1, boards=Boards([], [])):
    return Deck([survival] * N, [weight] * N, [System(rule, a, b)], version, boards)


def causes():
    """A deck for each cause, of one system."""
    for rule in BROKEN:
        for a, b in ((1, N), (3, 3), (2, N - 1)):
            yield plain_deck(rule, a, b)
    for rule in BROKEN:
        if rule.kind == 2:
            yield plain_deck(rule, weight=0)
    for kind in (0, 9, 65535):
        yield plain_deck(Rule(kind, 1, 0))
    for a, b in ((0, 3), (5, 4), (1, N + 1), (N + 1, N + 1)):
        yield plain_deck(Rule(1, 1, 0), a, b)
    for version in (1, 2, 3):
        boards = Boards([1] * N, [400]) if version == 3 else Boards([], [])
        high = UNITS[version] + 1
        yield Deck([500] * 4 + [high] + [500] * (N - 5), [1] * N, [System(Rule(1, 1, 0), 2, 9)], version, boards)
    yield Deck([500] * N, [1] * N, [System(Rule(1, 1, 0), 2, 9)], 3, Boards([1] * N, [400, UNITS[3] + 7]))
    yield plain_deck(Rule(2, 1, 0), weight=11)


def ruled(deck, *numbers):
    system = deck.systems[0]
    return deck._replace(systems=[System(Rule(*numbers), system.a, system.b)])


def remedied(deck, words):
    """The decks that come of doing what the words say, at both ends of each range."""
    system = deck.systems[0]
    kind = system.rule.kind
    numbers = [int(number) for number in re.findall(r"\d+", words)]
    if "kinds are" in words:
        return [ruled(deck, kind, 1, 0) for kind in (1, 8)]
    if "no stretch" in words:
        return [deck._replace(systems=[System(system.rule, a, numbers[-1])]) for a in (1, numbers[-1])]
    if found := re.match(r"fan (\d+) has survival number \d+; (\d+) is the most", words):
        fan, most = map(int, found.groups())
        return [deck._replace(survivals=[most if place == fan else number for place, number in enumerate(deck.survivals, 1)])]
    if found := re.match(r"board (\d+) has survival number \d+; (\d+) is the most", words):
        board, most = map(int, found.groups())
        kept = [most if place == board else number for place, number in enumerate(deck.boards.survivals, 1)]
        return [deck._replace(boards=deck.boards._replace(survivals=kept))]
    if "weigh" in words and "together" in words:
        return [deck._replace(weights=[numbers[-1] // len(deck.weights)] * len(deck.weights))]
    if "no weight" in words:
        lighter = deck._replace(weights=[1] * len(deck.weights))
        return [ruled(lighter, kind, first, 0) for first in (1, system.b - system.a + 1)]
    if "make that 0" in words or "; K is from 1 to" in words:
        return [ruled(deck, kind, first, 0) for first in (1, numbers[-1])]
    if "the second at most" in words:
        return [ruled(deck, kind, 0, numbers[-1]), ruled(deck, kind, numbers[-1], numbers[-1])]
    if found := re.search(r"needs (\d+) of any (\d+) says it", words):
        return [ruled(deck, 8, int(found[1]), int(found[2]))]
    if "take more fans" in words:
        return [deck._replace(systems=[System(Rule(kind, 2, size), 1, size)]) for size in (2, N)]
    if "K is 2 and R from 2 to" in words:
        return [ruled(deck, kind, 2, r) for r in (2, numbers[-1])]
    if "K from 1 to R" in words:
        most = min(numbers[-3], 10)
        return [ruled(deck, kind, 1, 1), ruled(deck, kind, most, most)]
    raise ValueError(words)


def said(data, program="decklist"):
    done = subprocess.run([str(word) for word in (*linked(program), "--words")], input=data, stdout=subprocess.PIPE)
    return done.stdout.decode()


def each_remedy_helps():
    decks = list(causes())
    lines = mapped(lambda deck: said(deck_bytes(deck)).splitlines()[1], decks)
    refused = 0
    for deck, line in zip(decks, lines, strict=True):
        found = re.match(r"system 1 refused (\d+): (.*)", line)
        if not found:
            continue
        refused += 1
        for better in remedied(deck, found[2]):
            again = re.search(r"^system 1 refused (\d+)", decklist_output(deck_bytes(better)), re.M)
            if again and again[1] == found[1]:
                print(f"{deck.systems[0]}: {line}: still refused as {better.systems[0]}")
                return False
    print(f"{refused} of {len(decks)} systems were refused, each with a remedy that helps")
    return refused > 500


def mending_helps():
    """Where the words name deckmend, deckmend takes the refusal away."""
    mended = 0
    for data in random_files(SEED, FILES):
        line = worded_output(data).splitlines()[0]
        if "deckmend" not in line:
            continue
        number = read_deck(data).number
        done = subprocess.run([str(word) for word in linked("deckmend")], input=data, capture_output=True)
        after = read_deck(done.stdout) if done.returncode == 0 else None
        if done.returncode == 0 and isinstance(after, Refusal) and after.number == number:
            print(f"{line}: still refused {after.number} after deckmend")
            return False
        mended += done.returncode == 0
    print(f"{mended} files were mended as their words say")
    return mended > 20


def inputs(decks, files):
    found = [*(deck_bytes(deck) for deck in decks), *random_files(SEED, files)]
    return found + [data + bytes(5000) for data in found[-20:]] + [b"", bytes(19), bytes(20), b"\3" + bytes(24)]


def words_as_the_second_program():
    data = inputs(causes(), FILES)
    return compare("inputs through decklist --words", mapped(said, data), [worded_output(one) for one in data])


def longest():
    """As many fans and systems as a deck has, each with the longest words: the stretch is none."""
    return Deck([500] * MOST_FANS, [1] * MOST_FANS, [System(Rule(1, 1, 0), 65535, 65534)] * MOST_SYSTEMS, 1, Boards([], []))


def worths_in_words():
    """Of every tenth cause, of files, and of the longest text."""
    data = [*inputs(list(causes())[::10], FILES_OF_WORTHS), deck_bytes(longest())]
    return compare("inputs through deckworth --words", mapped(lambda one: said(one, "deckworth"), data), [worded_worths(one) for one in data])


def main():
    prove()
    return 0 if held(words_as_the_second_program, worths_in_words, each_remedy_helps, mending_helps) else 1


if __name__ == "__main__":
    sys.exit(main())
