"""Checks of a spare's gain and of deckspare's lines: by the sum over all words, by what worth says of a sure spare, by plain cases, and of ties and pairs by comparing every two."""

import random
from itertools import combinations

from second.model.calls import figures, worth
from second.model.deck_file import deck_bytes, file_refusal, read_deck
from second.model.figures import exact_sum_by_words, low_and_high_by_words
from second.model.loading import decklist_output
from second.model.spares import Place, Stretch, best_pair, best_places, deckspare_output, gain, gain_of_file, groups
from second.model.terms import BOARDS_VERSION, NO_BOARDS, UNIT, UNITS, Boards, Deck, Refusal, Rule, System
from second.samples.files import random_files
from second.samples.lists import random_boards, random_systems
from second.samples.published import DECK_FILE

RISING = {1, 2, 4, 5, 6, 7, 8}


def replaced(survivals, fan, p):
    return [*survivals[:fan - 1], p, *survivals[fan:]]


def gains_by_words():
    """The exact difference lies between the ends, which are at most 2n - 2 apart and run from -S to S; a sure spare gains the worth times the fan's own failure
    number; a spare that is not worse takes nothing away, but under kind 3."""
    rng = random.Random(45)
    for version, unit in UNITS.items():
        for rule, survivals, weights in random_systems(46, 42, 8, unit):
            n = len(survivals)
            listed = {"version": version, "boards": Boards([0] * n, [unit]) if version == BOARDS_VERSION else NO_BOARDS}
            parts = n + (version == BOARDS_VERSION)
            now = exact_sum_by_words(rule, survivals, weights, unit)
            for fan in range(1, n + 1):
                own, p = survivals[fan - 1], rng.choice((0, unit, rng.randint(0, unit)))
                lower, upper = gain(rule, 1, n, fan, p, survivals, weights, **listed)
                after = replaced(survivals, fan, p)
                exact = exact_sum_by_words(rule, after, weights, unit) - now
                yield lower * unit ** (n - 1) <= exact <= upper * unit ** (n - 1), True
                yield 0 <= upper - lower <= 2 * parts - 2 and -unit <= lower and upper <= unit, True
                works, fails = (exact_sum_by_words(rule, replaced(survivals, fan, number), weights, unit) for number in (unit, 0))
                yield (works - now) * unit, (works - fails) * (unit - own)
                yield rule.kind not in RISING or p < own or exact >= 0, True
                if version != BOARDS_VERSION:
                    first, second = (low_and_high_by_words(rule, numbers, weights, unit) for numbers in (after, survivals))
                    yield (lower, upper), (first[0] - second[1], first[1] - second[0])


def plain_gains():
    """Gains that can be told without a reading: a spare like the fan, and sure ones for fans that are dead or sure."""
    for version, unit in UNITS.items():
        for rule, survivals, weights in random_systems(47, 42, 8, unit):
            n = len(survivals)
            listed = {"version": version, "boards": Boards([1] * n, [unit // 3]) if version == BOARDS_VERSION else NO_BOARDS}
            low, high = figures(rule, 1, n, survivals, weights, **listed)
            for fan in range(1, n + 1):
                yield gain(rule, 1, n, fan, survivals[fan - 1], survivals, weights, **listed), (low - high, high - low)
                dead = replaced(survivals, fan, 0)
                yield gain(rule, 1, n, fan, unit, dead, weights, **listed), worth(rule, 1, n, fan, survivals, weights, **listed)
    # two of three at 7/8, 3/4 and 1/2: the last is worth least and gains most
    apart = [7 * UNIT // 8, 3 * UNIT // 4, UNIT // 2]
    yield [worth(Rule(1, 2, 0), 1, 3, fan, apart, [])[0] * 16 // UNIT for fan in (1, 2, 3)], [8, 8, 5]
    yield [gain(Rule(1, 2, 0), 1, 3, fan, UNIT, apart, []) for fan in (1, 2, 3)], [(UNIT * k // 32,) * 2 for k in (2, 4, 5)]


def refusals_of_gains():
    """As the figures', P among the numbers of 4, then 17."""
    for version, unit in UNITS.items():
        three, over, boards = [1, 1, 1], [1, unit + 1, 1], Boards([0, 0, 0], [unit])
        cases = (
            (Rule(9, 0, 9), 0, 9, 0, unit + 1, three, [], 0, 1), (Rule(2, 0, 0), 2, 1, 9, unit + 1, over, [], 0, 3),
            (Rule(2, 0, 0), 1, 3, 9, 0, over, [], 0, 4), (Rule(2, 0, 0), 1, 3, 9, unit + 1, three, [], 0, 4), (Rule(2, 0, 0), 1, 3, 9, unit, three, [], 0, 5),
            (Rule(1, 4, 0), 1, 3, 0, unit + 1, three, [], 0, 4), (Rule(1, 4, 0), 1, 3, 0, unit, three, [], 0, 6), (Rule(1, 1, 0), 1, 3, 0, unit, three, [], 7799, 7),
            (Rule(1, 1, 0), 1, 3, 0, 2 ** 64 - 1, three, [], 7799, 4), (Rule(1, 1, 0), 1, 3, 0, unit + 1, three, [], 7800, 4),
            (Rule(1, 1, 0), 1, 3, 0, unit, three, [], 7800, 17), (Rule(1, 1, 0), 1, 3, 4, unit, three, [], 7800, 17), (Rule(1, 1, 0), 2, 2, 1, 0, three, [], 7800, 17),
            (Rule(1, 1, 0), 2, 2, 3, 0, three, [], 7800, 17), (Rule(1, 1, 0), 1, 1, 2, 0, over, [], 7800, 17), (Rule(1, 1, 0), 2, 2, 2, 0, over, [], 7800, 4),
        )
        for rule, a, b, fan, p, survivals, weights, room, number in cases:
            yield gain(rule, a, b, fan, p, survivals, weights, room, version, boards), Refusal(number)
        yield gain(Rule(1, 1, 0), 2, 2, 2, unit, [2 ** 32 - 1, 0, 2 ** 32 - 1], [], version=version, boards=boards), (unit, unit)
    for version in (0, 4):
        yield gain(Rule(9, 0, 0), 1, 1, 1, 2 ** 64 - 1, [1], [], 0, version), Refusal(11)


def lines_of_gains():
    """What deckspare prints by fans is what the call for C answers, fan by fan of the stretch."""
    yield deckspare_output(DECK_FILE, b"1.0").splitlines(), [
        *(f"system 1 fan {fan} lower 268435456 upper 268435456" for fan in (1, 2, 3)), "system 2 fan 1 lower 134217728 upper 134217728",
        "system 2 fan 2 lower 402653184 upper 402653184", "system 2 fan 3 lower 134217728 upper 134217728", "system 3 refused 6"]
    for data in (data for data in random_files(48, 120) if len(data) < 300):
        if file_refusal(data):
            yield deckspare_output(data), decklist_output(data)
            continue
        deck, wanted = read_deck(data), []
        for place, system in enumerate(deck.systems, 1):
            answers = {fan: gain_of_file(data, place, fan, UNITS[deck.version]) for fan in range(system.a, system.b + 1)}
            refused = {answer.number for answer in answers.values() if isinstance(answer, Refusal)}
            if refused or not answers:
                wanted.append(f"system {place} refused {gain_of_file(data, place, 0, UNITS[deck.version]).number}")
            else:
                wanted += [f"system {place} fan {fan} lower {lower} upper {upper}" for fan, (lower, upper) in answers.items()]
        yield deckspare_output(data).splitlines(), wanted


def ties_told():
    """Every two of a group overlap, each place of a later group gains surely less than a place of each earlier one, and no group is cut."""
    rng = random.Random(49)
    for _ in range(300):
        left = [Place(fan, None, (lower, lower + rng.randint(0, 6))) for fan, lower in enumerate(rng.sample(range(-30, 30), rng.randint(1, 12)), 1)]
        told = list(groups(left))
        yield sorted(place.fan for group in told for place in group), [place.fan for place in left]
        for group in told:
            yield all(first.ends[1] >= second.ends[0] for first in group for second in group), True
            yield [place.fan for place in group], sorted(place.fan for place in group)
        for earlier, later in combinations(told, 2):
            highest = max(place.ends[0] for place in earlier)
            yield all(place.ends[1] < highest for place in later), True
        most = rng.randint(1, len(left))
        named = list(best_places(left, most))
        yield named, told[:len(named)]
        yield sum(map(len, named)) >= most > sum(map(len, named[:-1])), True
    # like fans on a ring gain the same, whatever is rounded
    for n, unit in ((64, UNIT), (9, 10 ** 9)):
        ring = Deck([unit - unit // 97] * n, [0] * n, [System(Rule(5, 4, 0), 1, n)], 1 if unit == UNIT else 2, NO_BOARDS)
        told = deckspare_output(deck_bytes(ring), b"1.0", best=1).splitlines()
        yield [line.split(" low ")[0] for line in told], [f"system 1 rank 1 alike {n} fan {fan}" for fan in range(1, n + 1)]


def best_pairs():
    """The pair named is the first that has the highest low of all, behind any boards and for any spare; a system of one fan has none."""
    rng = random.Random(51)
    for version, unit in UNITS.items():
        for rule, survivals, weights in random_systems(50, 28, 7, unit):
            n, p = len(survivals), rng.choice((0, unit, rng.randint(0, unit)))
            boards = random_boards(rng, n, unit=unit) if version == BOARDS_VERSION else NO_BOARDS
            rated = {pair: figures(rule, 1, n, replaced(replaced(survivals, pair[0], p), pair[1], p), weights, version=version, boards=boards)
                     for pair in combinations(range(1, n + 1), 2)}
            *pair, told = best_pair(Stretch(rule, survivals, weights, boards, unit), 1, p)
            highest = max(low for low, _ in rated.values())
            yield tuple(pair), next(pair for pair, (low, _) in rated.items() if low == highest)
            yield told, rated[tuple(pair)]
    one = Deck([UNIT // 2] * 3, [0] * 3, [System(Rule(1, 1, 0), 2, 2), System(Rule(1, 2, 0), 2, 2), System(Rule(1, 1, 0), 2, 3)], 1, NO_BOARDS)
    yield deckspare_output(deck_bytes(one), b"1.0", pair=True).splitlines(), [
        "system 1 has one fan", "system 2 refused 6", "system 3 fans 2 and 3 low 1073741824 high 1073741824 100.000000% to 100.000000%"]


GROUPS = gains_by_words, plain_gains, refusals_of_gains, lines_of_gains, ties_told, best_pairs
