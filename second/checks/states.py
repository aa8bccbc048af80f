"""Checks of deckstate's second program: its lines by hand, and against every window of the deck gone through by the fans' own numbers."""

import random

from second.model.deck_file import deck_bytes, read_deck
from second.model.loading import decklist_output
from second.model.states import BOARD, Wrong, deckstate_output, failed_fans, number_of, system_verdict
from second.model.terms import WORKS, Fails, Refusal
from second.samples.files import DAMAGES, random_deck
from second.samples.states import NO_NUMBERS, every_kind, every_kind_file, right_words, wrong_words

DECKS = 150


def lines_of(data, *words):
    return deckstate_output(data, words)[0].splitlines()


def by_hand():
    """Lines that a reader can work out, of twelve fans with boards 1 (fans 1 to 3) and 2 (fans 6 to 8)."""
    data = every_kind_file()
    # nobody has failed: everything works, but for what is refused, kind 2 over the whole deck among it; a survival number above the unit is not looked at
    quiet = lines_of(data)
    yield quiet[:16], [f"system {place} " + ("refused 5" if place == 4 else "works") for place in range(1, 17)]
    yield quiet[16:], [f"system {place} refused {number}" for place, number in zip(range(17, 23), (1, 3, 3, 3, 6, 5))]
    # fans 8 and 9: two in a row, from 8, in the stretch from 4 to 9 as on the whole deck
    two = lines_of(data, "8", "9")
    yield two[6], "system 7 fails from 8"
    yield two[7], "system 8 fails from 8"
    # kind 1 fails without a place, and so does kind 3
    yield [two[0], two[4]], ["system 1 fails", "system 5 fails"]
    # fans 9 and 4 are next to each other on the stretch's ring, and not on the deck's
    around = lines_of(data, "9", "4")
    yield [around[8], around[9]], ["system 9 fails from 9", "system 10 works"]
    # fans outside the stretch do not count for it
    yield lines_of(data, "1", "2", "3", "10", "11", "12")[:16:2], [f"system {place} works" for place in range(1, 17, 2)]
    # a board is its fans, in any order, as often as one likes
    yield lines_of(data, "board", "2"), lines_of(data, "7", "6", "8", "6")
    yield lines_of(data, "12", "board", "1", "board", "2", "board", "1"), lines_of(data, *"1 2 3 6 7 8 12".split())
    yield deckstate_output(data[:-1], ["board", "x"]), (f"file refused {13}\n", "")


FANS = "wanted a fan from 1 to 12, a range as 3-7 or a list as 3,4,9"


def words_by_hand():
    deck, plain = every_kind(), every_kind(2)
    plain = read_deck(deck_bytes(plain))
    yield failed_fans(plain, []), set()
    yield failed_fans(plain, ["12", "012", "1"]), {1, 12}
    yield failed_fans(plain, ["3-7", "9,11-12", "5"]), {3, 4, 5, 6, 7, 9, 11, 12}
    yield failed_fans(plain, ["1-12"]), set(range(1, 13))
    yield failed_fans(plain, ["2,2-2,002"]), {2}
    yield failed_fans(plain, ["1", "13", "0"]), Wrong(2, "13", FANS)
    yield failed_fans(plain, ["board", "1"]), Wrong(1, "board", "this deck has no boards")
    yield failed_fans(deck, ["board", "1"]), {1, 2, 3}
    yield failed_fans(deck, ["3", "board", "3", "x"]), Wrong(3, "3", "wanted a board from 1 to 2")
    yield failed_fans(deck, ["board", "1-2"]), Wrong(2, "1-2", "wanted a board from 1 to 2")
    yield failed_fans(deck, ["board", "board"]), Wrong(2, "board", "wanted a board from 1 to 2")
    yield failed_fans(deck, ["1", "board"]), Wrong(2, "board", "wanted the number of a board from 1 to 2 behind it")
    yield [number_of(word) for word in ("7", "07", "0000000000000007", "00000000000000007")], [7, 7, 7, 0]
    for word in NO_NUMBERS:
        yield failed_fans(deck, [word]), Wrong(1, word, FANS)
    yield deckstate_output(deck_bytes(deck), ["9", "\u0661"]), ("", f'deckstate: word 2, "??": {FANS}\n')
    yield deckstate_output(deck_bytes(deck), ["x" * 61]), ("", f'deckstate: word 1, "{"x" * 60}": {FANS}\n')


def windows_on_deck(rule, a, b):
    """For kinds 4 to 8 each window of the stretch as the fans' numbers, by its first fan, and how many failed ones are too many."""
    n = b - a + 1
    length = rule.first if rule.kind in (4, 5) else rule.second
    too_many = {4: length, 5: length, 6: 2, 7: 2, 8: length - rule.first + 1}[rule.kind]
    length = min(length, n) if rule.kind == 6 else length
    for first in range(a, b + 1):
        window = [a + (first - a + further) % n for further in range(length)]
        if rule.kind in (5, 7) or first + length - 1 <= b:
            yield first, window, too_many


def judged_on_deck(deck, system, failed):
    """Works, or the lowest fan at which a failing window starts, without a state word."""
    rule, a, b = system
    inside = [fan for fan in failed if a <= fan <= b]
    if rule.kind in (1, 2, 3):
        amount = sum(deck.weights[fan - 1] for fan in inside) if rule.kind == 2 else len(inside)
        most = rule.second if rule.kind == 3 else amount
        return "fails" if rule.first <= amount <= most else WORKS
    found = [first for first, window, too_many in windows_on_deck(rule, a, b) if len(set(window) & failed) >= too_many]
    return f"fails from {found[0]}" if found else WORKS


def against_windows():
    rng = random.Random(131)
    met = set()
    for _ in range(DECKS):
        deck = random_deck(rng)
        words = right_words(rng, deck)
        failed = failed_fans(deck, words)
        shown = lines_of(deck_bytes(deck), *words)
        for place, (system, line) in enumerate(zip(deck.systems, shown, strict=True), 1):
            answer = system_verdict(deck, system, failed)
            if isinstance(answer, Refusal):
                yield line, f"system {place} refused {answer.number}"
                # a rating is refused too, by the same number, unless a survival number comes first
                rated = decklist_output(deck_bytes(deck)).splitlines()[place]
                yield rated in (f"system {place} refused {answer.number}", f"system {place} refused 4"), True
                continue
            met.add((system.rule.kind, isinstance(answer, Fails)))
            yield line, f"system {place} {judged_on_deck(deck, system, failed)}"
            # one that is outside the stretch changes nothing
            yield answer, system_verdict(deck, system, failed ^ {fan for fan in range(1, len(deck.survivals) + 1) if not system.a <= fan <= system.b})
    yield len(met), 16


def wrong_words_told():
    rng = random.Random(132)
    for _ in range(DECKS):
        deck = random_deck(rng)
        shown, said = deckstate_output(deck_bytes(deck), wrong_words(rng, deck))
        yield bool(shown) != bool(said), True
        damaged = rng.choice(DAMAGES)(rng, deck_bytes(deck))
        refused = read_deck(damaged)
        if isinstance(refused, Refusal):
            yield deckstate_output(damaged, wrong_words(rng, deck)), (f"file refused {refused.number}\n", "")


def no_more_fails():
    """But for kind 3, a system that fails goes on failing where more fans have failed; all the boards together fail every fan that is on one."""
    rng = random.Random(133)
    for _ in range(DECKS):
        deck = random_deck(rng)
        n, g = len(deck.survivals), len(deck.boards.survivals)
        fewer = {fan for fan in range(1, n + 1) if rng.random() < 0.3}
        more = fewer | {rng.randint(1, n)}
        for system in deck.systems:
            if system.rule.kind != 3 and isinstance(system_verdict(deck, system, fewer), Fails):
                yield isinstance(system_verdict(deck, system, more), Fails), True
        every = [word for board in range(1, g + 1) for word in (BOARD, str(board))]
        yield failed_fans(deck, every), {fan for fan, board in enumerate(deck.boards.of_fans, 1) if board}


GROUPS = by_hand, words_by_hand, against_windows, wrong_words_told, no_more_fails
