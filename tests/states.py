"""deckstate against the second program, byte for byte, what it prints and what it says on standard error: random decks of every version with random words, right
and wrong ones, damaged files, the samples, and a word of each kind that is no number."""

import random
import subprocess
import sys
from itertools import combinations_with_replacement

from second.model.deck_file import deck_bytes
from second.model.states import BOARD, deckstate_output
from second.model.terms import BOARDS_VERSION
from second.samples.files import DAMAGES, VERSIONS, random_deck
from second.samples.states import NO_NUMBERS, every_kind, every_kind_file, fan_words, right_words, wrong_words
from tests.common import DONE, FAILED, REFUSED, compare, decks, linked, mapped

DECKS = 80  # of each version
WRONG = 40
DAMAGED = 30
MANY = 2000  # words


def through(program, case):
    """What is printed and said; the words stand behind --, so that none of them is an option. The status is 2 for a wrong word, 1 for a refused file."""
    data, words = case
    done = subprocess.run([*program, "--", *words], input=data, capture_output=True)
    printed, said = done.stdout.decode(), done.stderr.decode()
    if done.returncode != (FAILED if said else REFUSED if printed.startswith("file refused ") else DONE):
        raise subprocess.CalledProcessError(done.returncode, done.args, printed, said)
    return printed, said


def random_cases(rng):
    """Decks of every version: right words, wrong ones, and words beside a damaged file."""
    for version in VERSIONS:
        for place in range(DECKS):
            deck = random_deck(rng, version)
            yield deck_bytes(deck), right_words(rng, deck)
            if place < WRONG:
                yield deck_bytes(deck), wrong_words(rng, deck)
            if place < DAMAGED:
                yield rng.choice(DAMAGES)(rng, deck_bytes(deck)), rng.choice((right_words, wrong_words))(rng, deck)


def named_cases(rng):
    """Every fan of a deck of every kind, and where it has boards every pair of fans and every board; words that are no number in each place that a number
    has, and very many words."""
    for version in VERSIONS:
        data = every_kind_file(version)
        yield data, []
        fans = range(1, 13)
        pairs = combinations_with_replacement(fans, 2) if version == BOARDS_VERSION else zip(fans, fans)
        yield from ((data, [str(one), str(other)]) for one, other in pairs)
        yield from ((data, [BOARD, board]) for board in "0123")
        yield from ((data, words) for word in NO_NUMBERS for words in ([word], ["1", word, "x"], [BOARD, word]))
        yield from ((data, words) for words in ([BOARD], ["1", BOARD], [BOARD, BOARD], [BOARD, "1", BOARD], [BOARD, "1", BOARD, "2", "12", "13"], [f"{BOARD} 1"]))
    fans = len(every_kind().survivals)
    yield every_kind_file(), [word for _ in range(MANY // fans) for word in fan_words(rng, fans)]
    yield from ((deck.read_bytes(), words) for deck in decks() for words in ([], ["1"], ["3", "2"], [BOARD, "1"], ["1", "2", "3", "4"]))


def main():
    program, rng, good = linked("deckstate"), random.Random(31), True
    for what, cases in (("named words", list(named_cases(rng))), ("random words", list(random_cases(rng)))):
        good &= compare(f"{what} through deckstate", mapped(lambda case: through(program, case), cases), [deckstate_output(*case) for case in cases])
    return 0 if good else 1


if __name__ == "__main__":
    sys.exit(main())
