"""deckpage: what stands on a deck file's page, system by system. The texts are those of deckmake's words, of decklist's and of deckworth's figures."""

from typing import NamedTuple

from second.model.causes import file_words, system_words
from second.model.deck_file import read_deck
from second.model.loading import deckworth_output, rate_system
from second.model.terms import BOARDS_VERSION, UNITS, Refusal
from second.model.typed import rule_words

NAMED = 5
MILLIONTHS = 100 * 10 ** 6  # the whole, in millionths of a percent


class Card(NamedTuple):
    """A system's texts, and the ends of its fans' worths, None outside its stretch."""

    texts: list
    worths: list


def percent(millionths):
    return f"{millionths // 10 ** 6}.{millionths % 10 ** 6:06}%"


def percents(unit, low, high):
    """Low rounded down, high rounded up."""
    return f"{percent(low * MILLIONTHS // unit)} to {percent(-(-high * MILLIONTHS // unit))}"


def worths_of(data):
    """deckworth's lines: of each system and each fan the two ends, or None."""
    ends = {}
    for line in deckworth_output(data).splitlines():
        words = line.split()
        ends[int(words[1]), int(words[3])] = (int(words[5]), int(words[7])) if words[4] == "lower" else None
    return ends


def windows(system):
    """The first window and the last, by their first and last fans; None for a rule without windows."""
    kind, first, second = system.rule.numbers
    size = system.b - system.a + 1
    length = min(first if kind in (4, 5) else second, size) if kind >= 4 else 0
    if not length:
        return None
    starts = [system.a, system.b if kind in (5, 7) else system.b - length + 1]
    return [(start, system.a + (start - system.a + length - 1) % size) for start in starts]


def best(worths):
    """The fans that are worth most, by the upper end, then the lower, then the number."""
    fans = [(fan, ends) for fan, ends in enumerate(worths, 1) if ends]
    return sorted(fans, key=lambda one: (-one[1][1], -one[1][0], one[0]))[:NAMED]


def title(n, place, system):
    stretch = "" if (system.a, system.b) == (1, n) else f" from {system.a} to {system.b}"
    return f"System {place}: {rule_words(system.rule)}{stretch}"


def card(deck, place, system, worths):
    n = len(deck.survivals)
    answer = rate_system(deck, system)
    head = title(n, place, system)
    if isinstance(answer, Refusal):
        return Card([head, f"refused {answer.number}: {system_words(deck, system, answer.number)}"], [])
    low, high = answer
    boards = len(deck.boards.survivals) if deck.version == BOARDS_VERSION else 0
    texts = [head, f"{percents(UNITS[deck.version], low, high)} low {low} high {high}", f"gap {high - low} of at most {system.b - system.a + boards}"]
    texts += [str(fan) for fan in range(1, n + 1) if fan == 1 or fan % (4 if n <= 32 else 8) == 0]
    marked = windows(system)
    if marked:
        (first, last), (start, end) = marked
        texts.append(f"windows: the first is fans {first} to {last}, the last {start} to {end}")
    if system.rule.numbers[0] in (5, 7):
        texts.append(str(system.a))
    texts += [f"fan {fan} lower {lower} upper {upper}" for fan, (lower, upper) in best(worths)]
    return Card(texts, worths)


def counted(number, name):
    return f"{number} {name}{'' if number == 1 else 's'}"


def page_of(data):
    """The heading and the systems of a page; of a refused file the heading and what is said of it."""
    deck = read_deck(data)
    if isinstance(deck, Refusal):
        return "The deck file is refused", [Card([f"refused {deck.number}: {file_words(data)}"], [])]
    n, m = len(deck.survivals), len(deck.systems)
    boards = [counted(len(deck.boards.survivals), "board")] if deck.version == BOARDS_VERSION else []
    heading = ", ".join((f"Deck of {counted(n, 'fan')}", *boards, counted(m, "system")))
    ends = worths_of(data)
    return heading, [card(deck, place, system, [ends[place, fan] for fan in range(1, n + 1)]) for place, system in enumerate(deck.systems, 1)]
