"""Where a spare goes: the gain of a spare in a fan's place, its best places with ties told as ties, the best two places for two of them, and what deckspare prints."""

from itertools import combinations
from typing import NamedTuple

from second.model.boards import low_and_high_behind
from second.model.calls import rated_boards, with_fan
from second.model.deck_file import read_deck
from second.model.loading import bad_system
from second.model.page import percents
from second.model.refusals import bad_fan, figures_refusal
from second.model.terms import NO_BOARDS, TABLE_CELLS, UNITS, Refusal
from second.model.typed import Cursor, Wrong, survival

FOUR, FAN = 4, 17
AFTER_FOUR = (5, 6, 7)  # document 01, 'Refusal numbers': "The lowest number that applies is given"


def spare_refusal(rule, a, b, p, survivals, weights, room, version, boards):
    """The figures' refusals, the spare's number among those of 4."""
    number = figures_refusal(rule, a, b, survivals, weights, room, version, boards)
    if version in UNITS and p > UNITS[version] and (number is None or number in AFTER_FOUR):
        return FOUR
    return number


class Stretch(NamedTuple):
    """What is asked of a system that is not refused: the stretch's own lists, by fans of the stretch counted from 1."""

    rule: tuple
    survivals: list
    weights: list
    boards: tuple
    unit: int

    def figures(self, *fans, p=0):
        """Low and high with a spare in the place of each of these fans."""
        survivals = self.survivals
        for fan in fans:
            survivals = with_fan(survivals, fan, p)
        return low_and_high_behind(self.rule, survivals, self.weights, self.boards, self.unit)


def stretch_of(rule, a, b, survivals, weights, version, boards):
    return Stretch(rule, survivals[a - 1:b], weights[a - 1:b], rated_boards(version, boards, a, b), UNITS[version])


def ends(after, before):
    return after[0] - before[1], after[1] - before[0]


def gain(rule, a, b, fan, p, survivals, weights, room=TABLE_CELLS, version=1, boards=NO_BOARDS):
    """The figures with the fan's number replaced by p, less the figures as they are: low after less high before, high after less low before."""
    number = spare_refusal(rule, a, b, p, survivals, weights, room, version, boards) or (FAN if bad_fan(a, b, fan) else None)
    if number:
        return Refusal(number)
    stretch = stretch_of(rule, a, b, survivals, weights, version, boards)
    return ends(stretch.figures(fan - a + 1, p=p), stretch.figures())


def gain_of_file(data, system, fan, p):
    deck = read_deck(data)
    if isinstance(deck, Refusal):
        return deck
    if bad_system(deck, system):
        return Refusal(14)
    asked = deck.systems[system - 1]
    return gain(asked.rule, asked.a, asked.b, fan, p, deck.survivals, deck.weights, version=deck.version, boards=deck.boards)


class Place(NamedTuple):
    """A place for a spare: its fan on the deck, the figures after the swap, and the gain's two ends."""

    fan: int
    figures: tuple
    ends: tuple


def places(stretch, a, p):
    before = stretch.figures()
    for place in range(1, len(stretch.survivals) + 1):
        after = stretch.figures(place, p=p)
        yield Place(a + place - 1, after, ends(after, before))


def groups(left):
    """Places that are alike, the best first: a leader with the highest lower end, and every place whose upper end is not below that; then the same among the rest."""
    left = list(left)
    while left:
        highest = max(place.ends[0] for place in left)
        yield [place for place in left if place.ends[1] >= highest]
        left = [place for place in left if place.ends[1] < highest]


def best_places(left, most):
    """Whole groups until so many places are named."""
    named = 0
    for group in groups(left):
        if named >= most:
            return
        named += len(group)
        yield group


def best_pair(stretch, a, p):
    """The first of the pairs whose low is the highest, in the order of their fans, and its figures."""
    rated = [(first, second, stretch.figures(first, second, p=p)) for first, second in combinations(range(1, len(stretch.survivals) + 1), 2)]
    highest = max(low for _, _, (low, _) in rated)
    return next((a + first - 1, a + second - 1, figures) for first, second, figures in rated if figures[0] == highest)


def rated_text(unit, figures):
    return f"low {figures[0]} high {figures[1]} {percents(unit, *figures)}"


def group_lines(unit, rank, group):
    """Places that are alike have one rank."""
    return (f"rank {rank} alike {len(group)} fan {place.fan} {rated_text(unit, place.figures)}" for place in group)


def system_lines(deck, system, p, best, pair):
    """What is told of one system."""
    listed = system.rule, system.a, system.b
    number = spare_refusal(*listed, p, deck.survivals, deck.weights, TABLE_CELLS, deck.version, deck.boards)
    if number:
        yield f"refused {number}"
        return
    stretch = stretch_of(*listed, deck.survivals, deck.weights, deck.version, deck.boards)
    if pair and system.a == system.b:
        yield "has one fan"
    elif pair:
        first, second, figures = best_pair(stretch, system.a, p)
        yield f"fans {first} and {second} {rated_text(stretch.unit, figures)}"
    elif best:
        rank = 1
        for group in best_places(places(stretch, system.a, p), best):
            yield from group_lines(stretch.unit, rank, group)
            rank += len(group)
    else:
        yield from (f"fan {place.fan} lower {place.ends[0]} upper {place.ends[1]}" for place in places(stretch, system.a, p))


def deckspare_output(data, word=b"1.0", best=0, pair=False):
    """What deckspare prints, or the fault of its first word."""
    deck = read_deck(data)
    if isinstance(deck, Refusal):
        return f"file refused {deck.number}\n"
    try:
        p = survival(Cursor([word]), deck.version)
    except Wrong as wrong:
        return wrong
    return "".join(
        f"system {place} {line}\n" for place, system in enumerate(deck.systems, 1) for line in system_lines(deck, system, p, best, pair))
