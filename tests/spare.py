"""deckspare against the second program: what it prints, what it says and its status, for survival numbers as deckmake takes them, for so many of the best places, for two
spares, and for words that are none of these; and how far it is, on a terminal alone."""

import random
import subprocess
import sys

from second.model.deck_file import deck_bytes, read_deck
from second.model.spares import deckspare_output
from second.model.terms import KINDS, NO_BOARDS, UNITS, Boards, Deck, Rule, System
from second.model.typed import Wrong
from second.samples.files import random_files
from second.samples.lists import random_systems
from tests.common import DONE, FAILED, REFUSED, compare, decks, linked, mapped, on_terminal, ready

PROGRAM = "deckspare"
FILES = 90
LONGEST = 300  # bytes of a file: the second program works for seconds on the longest
NUMBERS = ("0", "1", "1.0", "0.0", "0.5", "1000000000", "1073741824", "999999999", "00536870912", "0.25", "0.98", "0.999999999", "4294967295")
NO_NUMBERS = ("", "x", "1.5", "0.", ".5", "1e3", "4294967296", "0.1234567890", "99999999999999999999", "0.5.5", "٣", "1" * 3000)


def outcome(data, *words):
    done = subprocess.run([*map(str, linked(PROGRAM)[:-1]), *words], input=data, capture_output=True)
    return done.returncode, done.stdout.decode(), done.stderr.decode()


def wanted(data, word, option="", count="0"):
    """Status, lines, and what is said of a wrong number."""
    two = option == "--spares" and count == "2"
    told = deckspare_output(data, word.encode(), best=int(count) if option == "--best" else 0, pair=two)
    if isinstance(told, Wrong):
        return FAILED, "", f"deckspare: the spare's survival number: wanted {told.wanted}\n"
    return REFUSED if told.startswith("file refused") else DONE, told, ""


def numbers_alike():
    files = [deck.read_bytes() for deck in decks()] + [data for data in random_files(45, FILES) if len(data) < LONGEST]
    asked = [(data, word) for place, data in enumerate(files) for word in (*NUMBERS[place % 3::3], *NO_NUMBERS[place % 4::4])]
    met = {read_deck(data).version for data in files if hasattr(read_deck(data), "version")}
    good = met == set(UNITS)
    return good & compare("files and numbers through deckspare", mapped(lambda one: outcome(*one), asked), [wanted(*one) for one in asked])


def best_alike():
    files = [deck.read_bytes() for deck in decks()] + [data for data in random_files(46, FILES) if len(data) < LONGEST] + list(rings(2, 7, 24))
    asked = [(data, word, "--best", str(count)) for data in files for word, count in (("1.0", 1), ("1.0", 3), ("0.5", 2), ("1.0", 64), ("0", 4294967295))]
    return compare("files through deckspare --best", mapped(lambda one: outcome(*one), asked), [wanted(*one) for one in asked])


def rings(*sizes):
    """Like fans, which gain the same, on rings and lines, behind a board and without."""
    for version, unit in UNITS.items():
        for n in sizes:
            systems = [System(Rule(kind, *numbers), 1, n) for kind, numbers in ((5, (2, 0)), (7, (2, 2)), (4, (2, 0)), (8, (1, 2)), (1, (2, 0)), (3, (1, 1)))]
            boards = Boards([1] * n, [unit - unit // 50])
            yield deck_bytes(Deck([unit - unit // 97] * n, [0] * n, systems, version, boards))


def two_alike():
    """Random decks of every version and kind, with boards; like fans, of which the first pair is named; one fan; two spares are asked for by 2, and 1 is the same as nothing."""
    files = [data for data in (*(deck.read_bytes() for deck in decks()), *random_files(47, FILES), *rings(2, 7), *random_decks(48)) if len(data) < LONGEST]
    asked = [(data, word, "--spares", count) for data in files for word, count in (("1.0", "2"), ("0.5", "2"), ("0", "2"), ("1.0", "1"))]
    met = {(deck.version, system.rule.kind) for deck in map(read_deck, files) if isinstance(deck, Deck) for system in deck.systems}
    good = met >= {(version, kind) for version in UNITS for kind in KINDS}
    return good & compare("files through deckspare --spares", mapped(lambda one: outcome(*one), asked), [wanted(*one) for one in asked])


def random_decks(seed):
    """Two to nine fans under each kind of rule that can be asked of them, on the whole deck and without its last fan, which is a system of its own, behind up to four boards."""
    rng = random.Random(seed)
    for version, unit in UNITS.items():
        for rule, survivals, weights in random_systems(seed, 56, 9, unit):
            n = len(survivals)
            boards = Boards([rng.randint(0, 4) for _ in range(n)], [rng.choice((0, unit, rng.randint(0, unit))) for _ in range(4)])
            yield deck_bytes(Deck(survivals, weights or [0] * n, [System(rule, 1, n), System(Rule(1, 1, 0), n, n), System(rule, 1, n - 1)], version, boards))


def shown_on_terminal():
    """The pairs tried, row by row of the system's places, wiped at the end; and nothing where standard error is no terminal."""
    unit = UNITS[1]
    data = deck_bytes(Deck([unit - unit // 97] * 5, [0] * 5, [System(Rule(4, 2, 0), 1, 5), System(Rule(4, 2, 0), 1, 1)], 1, NO_BOARDS))
    shown = "".join(f"\rsystem 1 pairs {tried} of 10" for tried in (0, 4, 7, 9, 10)) + "\r" + " " * 32 + "\r"
    printed = deckspare_output(data, b"1.0", pair=True)
    words = [*map(str, linked(PROGRAM)[:-1]), "--spares", "2", "1.0"]
    good = on_terminal(words, data) == (printed, shown)
    return good & (outcome(data, "--spares", "2", "1.0") == (DONE, printed, ""))


def words_wrong():
    """No survival number at all; a number of places that is none."""
    data = decks()[0].read_bytes()
    missing = FAILED, "", "deckspare: the spare's survival number is missing; deckspare --help says what it takes\n"
    best = FAILED, "", "deckspare: --best: wanted a number from 1 to 4294967295\n"
    spares = FAILED, "", "deckspare: --spares: wanted 1 or 2\n"
    both = FAILED, "", "deckspare: --best and --spares 2: wanted one of them\n"
    asked = [
        (missing, ([], ["--best", "2"], ["--spares", "2"])),
        (best, (["--best", "0", "1.0"], ["1.0", "--best", "x"], ["1.0", "--best", "4294967296"], ["--best", "", "1.0"], ["--best", "-1", "1.0"])),
        (best, (["--best", "0", "--spares", "3", "1.0"], ["--spares", "2", "1.0", "--best", "x"])),
        (spares, (["--spares", "0", "1.0"], ["--spares", "3", "1.0"], ["1.0", "--spares", "x"], ["--spares", "", "1.0"], ["--best", "1", "--spares", "4294967296", "1.0"])),
        (both, (["--best", "1", "--spares", "2", "1.0"], ["--spares", "2", "1.0", "--best", "64"])),
    ]
    good = outcome(data, "--best", "1", "--spares", "1", "1.0") == outcome(data, "--best", "1", "1.0")
    return good & compare("wrong words", [outcome(data, *words) for _, several in asked for words in several], [told for told, several in asked for _ in several])


def main():
    ready(f"target/programs/{PROGRAM}")
    return 0 if numbers_alike() & best_alike() & two_alike() & shown_on_terminal() & words_wrong() else 1


if __name__ == "__main__":
    sys.exit(main())
