"""deckstate: which systems of a deck work where given fans have failed. Document 01's verdict over each system's stretch, and the place of document 02's
request 04, counted on the deck."""

import re
from typing import NamedTuple

from second.model.calls import verdict
from second.model.deck_file import read_deck
from second.model.refusals import bad_kind, bad_stretch
from second.model.terms import WORKS, Refusal

LONGEST_NUMBER = 16  # digits; more are no number
LONGEST_WORD = 256  # bytes; a longer word names nothing
SHOWN = 60  # bytes of a wrong word
LONGEST_SHOWN = 4096  # bytes; nothing is shown of a longer word
BOARD = "board"  # "A file of version 3 also takes `board B` words"


class Wrong(NamedTuple):
    """The first wrong word, counted from 1, as it is shown, and what was wanted."""

    at: int
    word: str
    wanted: str


def number_of(word):
    """The number that a word of digits spells; 0 for any other word."""
    return int(word) if re.fullmatch(f"[0-9]{{1,{LONGEST_NUMBER}}}", word) else 0


def named_fans(word, n):
    """The fans that a word names: a number, a range as 3-7, or several of these with commas between them; None where a part is none of these."""
    if len(word.encode()) > LONGEST_WORD:
        return None
    fans = set()
    for part in word.split(","):
        first, minus, last = part.partition("-")
        low, high = number_of(first), number_of(last if minus else first)
        if not 1 <= low <= high <= n:
            return None
        fans.update(range(low, high + 1))
    return fans


def failed_fans(deck, words):
    """The numbers of the fans that the words say have failed, or the word that is wrong."""
    n, g = len(deck.survivals), len(deck.boards.survivals)
    failed, boards, due = set(), set(), False
    for at, word in enumerate(words, 1):
        if due:
            if not 1 <= number_of(word) <= g:
                return Wrong(at, word, f"wanted a board from 1 to {g}")
            boards.add(number_of(word))
            due = False
        elif word == BOARD:
            if not g:
                return Wrong(at, word, "this deck has no boards")
            due = True
        else:
            fans = named_fans(word, n)
            if fans is None:
                return Wrong(at, word, f"wanted a fan from 1 to {n}, a range as 3-7 or a list as 3,4,9")
            failed |= fans
    if due:
        return Wrong(len(words), words[-1], f"wanted the number of a board from 1 to {g} behind it")
    return failed | {fan for fan, board in enumerate(deck.boards.of_fans, 1) if board in boards}


def shown(word):
    """The front of a word; what is no plain character is a question mark."""
    data = word.encode()
    return "".join(chr(byte) if 32 <= byte <= 126 else "?" for byte in data[:SHOWN]) if len(data) <= LONGEST_SHOWN else ""


def system_verdict(deck, system, failed):
    """Refusals 1 and 3 as of a rating, then the verdict's own over the stretch; survival numbers are not looked at."""
    if bad_kind(system.rule):
        return Refusal(1)
    if bad_stretch(system.a, system.b, len(deck.survivals)):
        return Refusal(3)
    stretch = range(system.a, system.b + 1)
    state = sum(2 ** place for place, fan in enumerate(stretch) if fan in failed)
    return verdict(system.rule, len(stretch), state, deck.weights[system.a - 1:system.b])


def system_line(place, system, answer):
    if isinstance(answer, Refusal):
        return f"system {place} refused {answer.number}"
    if answer == WORKS:
        return f"system {place} works"
    return f"system {place} fails" + (f" from {system.a - 1 + answer.place}" if answer.place else "")


def deckstate_output(data, words=()):
    """What is written to standard output and to standard error."""
    deck = read_deck(data)
    if isinstance(deck, Refusal):
        return f"file refused {deck.number}\n", ""
    failed = failed_fans(deck, words)
    if isinstance(failed, Wrong):
        return "", f'deckstate: word {failed.at}, "{shown(failed.word)}": {failed.wanted}\n'
    lines = [system_line(place, system, system_verdict(deck, system, failed)) for place, system in enumerate(deck.systems, 1)]
    return "".join(line + "\n" for line in lines), ""
