"""Checks of the second program's doubles by other ways: the bits' fields, all states gone through, and refusals worked one by one.

Each group yields pairs: what was found, and what it must equal.
"""

import random
from fractions import Fraction

from second.model.calls import figures
from second.model.deck_file import deck_bytes, file_refusal, read_deck
from second.model.doubles import (
    ONE, bits_of, chance, chance_between, double, double_above, double_below, is_chance, just_above, just_below, on_grid, own_value, planned, value,
)
from second.model.figures import exact_sum_by_words, low_and_high_by_words
from second.model.loading import rate
from second.model.refusals import bad_rule
from second.model.terms import KINDS, UNIT, UNITS, Boards, Deck, Refusal, Rule, System
from second.samples.doubles import CHANCES, NANS, NEGATIVE, NO_CHANCES, SMALLEST, about_grid, grid_point, grid_points, random_double, random_plan, wrong_plans
from second.samples.files import random_files


def own_values():
    """The value that Python reads is the own value over 2^1074."""
    rng = random.Random(101)
    finite = [bits for bits in NO_CHANCES if bits & NEGATIVE - 1 < 2047 << 52]
    for bits in (*CHANCES, *finite, *(random_double(rng) for _ in range(2000))):
        yield Fraction(own_value(bits), ONE), value(bits)
    yield own_value(SMALLEST), 1
    yield own_value(bits_of(1.0)), ONE


def chances_told():
    """What is a chance, by the own value; a NaN spells more than 1."""
    rng = random.Random(102)
    for bits in (*CHANCES, *NO_CHANCES, *(rng.getrandbits(64) for _ in range(2000)), *(random_double(rng) for _ in range(500))):
        yield is_chance(bits), bits not in NANS and 0 <= own_value(bits) <= ONE


def whole_numbers():
    """Just below and just above, by the own value; one where nothing is lost, else next to each other."""
    rng = random.Random(103)
    near = [bits for whole in grid_points(rng, 300) for bits in about_grid(whole)]
    for bits in (*CHANCES, *near, *(random_double(rng) for _ in range(1000))):
        below, left = divmod(own_value(bits) * UNIT, ONE)
        yield (just_below(bits), just_above(bits)), (below, below + (left > 0))
        yield on_grid(bits), left == 0
    for whole in grid_points(rng, 300):
        yield just_below(grid_point(whole)), whole
        yield value(grid_point(whole)) * UNIT, whole


def doubles_enclosed():
    """Low and high enclose the exact sum of all states, and are no further apart than is promised; they are those of the words of either list."""
    rng, seen = random.Random(104), set()
    for _ in range(900):
        rule, a, b, doubles, weights = random_plan(rng, most=8)
        answer = planned(rule, a, b, doubles, weights)
        if isinstance(answer, Refusal):
            continue
        rated, beside, n = doubles[a - 1:b], weights[a - 1:b], b - a + 1
        low, high = answer
        # document 02, request 10: "with E added up from those, 2^1074 in S's place"
        exact = exact_sum_by_words(rule, [own_value(bits) for bits in rated], beside, ONE)
        yield low * 2 ** (1074 * n) <= exact * 2 ** 30 <= high * 2 ** (1074 * n), True
        yield high - low <= (n - 1 if rule.kind == 3 else 2 * n - 1), True
        yield low, low_and_high_by_words(rule, [just_below(bits) for bits in rated], beside)[0]
        yield high, low_and_high_by_words(rule, [just_above(bits) for bits in rated], beside)[1]
        seen.add(rule.kind)
    yield seen, set(KINDS)


def widest_doubles():
    """A width of 2n - 1 is met: all chances just off the grid, under a rule that fails with the first fan."""
    # document 02, request 10: "at most 2n - 1 units apart"
    for n in range(1, 65):
        low, high = planned(Rule(1, 1, 0), 1, n, [bits_of(1 - 2.0 ** -31)] * n, [])
        yield high - low <= 2 * n - 1, True
    yield planned(Rule(1, 1, 0), 1, 1, [bits_of(2.0 ** -31)], []), (0, 1)
    yield planned(Rule(1, 2, 0), 1, 2, [bits_of(1.5 * 2.0 ** -30)] * 2, []), (1, 4)


def grid_as_figures():
    """Where every float is on the grid, the answer is that of the whole numbers in version 1's unit."""
    rng = random.Random(105)
    for _ in range(400):
        rule, a, b, doubles, weights = random_plan(rng)
        wholes = [rng.randint(0, UNIT) for _ in doubles]
        yield planned(rule, a, b, [grid_point(whole) for whole in wholes], weights), figures(rule, a, b, wholes, weights)


def lowest_wrong(rule, a, b, doubles, weights, room):
    """The first number of the request's order that applies, each condition tried by itself."""
    n = len(doubles)
    placed = 1 <= a <= b <= n
    rated, beside = (doubles[a - 1:b], weights[a - 1:b]) if placed else ([], [])
    applies = {
        1: rule.kind not in KINDS, 2: n == 0 or n > 64, 3: not placed,
        18: any(double(bits) != double(bits) or not 0 <= double(bits) <= 1 for bits in rated),
        5: rule.kind == 2 and (len(weights) != n or sum(beside) > 120),
        6: rule.kind in KINDS and bad_rule(rule, b - a + 1, beside), 19: rule.kind == 3 and any(own_value(bits) * UNIT % ONE for bits in rated),
        7: room < 7800,
    }
    return next((number for number in (1, 2, 3, 18, 5, 6, 19, 7) if applies[number]), None)


def refusals_of_doubles():
    rng, seen = random.Random(106), set()
    for plan in wrong_plans(rng, 1280):
        room = rng.choice((7800, 7800, 7801, 7799, 0))
        answer = planned(*plan, room)
        wanted = lowest_wrong(*plan, room)
        seen.add(wanted)
        yield answer.number if isinstance(answer, Refusal) else None, wanted
    yield seen, {None, 1, 2, 3, 5, 6, 7, 18, 19}


def chances_of_files():
    """A version 1 file's chances are its figures over 2^30; any other file is refused 11 as far as its header goes."""
    seen = set()
    for data in random_files(107, 240):
        other = len(data) >= 20 and data[:2] != b"\1\0"
        deck = read_deck(data)
        for system in (0, 1, 2, 33):
            answer, packed = chance(data, system), rate(data, system)
            refused = isinstance(answer, Refusal)
            seen.add(answer.number if refused else 0)
            if other:
                yield answer, Refusal(11)
            elif refused:
                yield 2 ** 64 - 2 ** 32 + answer.number, packed
            else:
                yield sum(int(end * UNIT) << shift for end, shift in zip(answer, (32, 0))), packed
        yield isinstance(deck, Refusal), file_refusal(data) is not None
    for version in UNITS:
        data = deck_bytes(Deck([2 ** 29], [0], [System(Rule(1, 1, 0), 1, 1)], version, Boards([1], [7])))
        yield chance(data, 1), (Fraction(1, 2),) * 2 if version == 1 else Refusal(11)
        yield [chance(data[:length], 1) for length in (19, 20, 27, len(data) - 1)], [Refusal(10), *[Refusal(13 if version == 1 else 11)] * 3]
    yield {0, 10, 11, 14} <= seen, True


def nearest_doubles():
    """By the bits alone: the own value is the largest, or the smallest, on its side of x / unit, since the next one up, or down, is on the other."""
    rng = random.Random(108)
    for unit in (UNIT, 10 ** 9):
        for x in (0, 1, 2, 3, unit // 2, unit - 1, unit, *(rng.randint(0, unit) for _ in range(300))):
            below, above = bits_of(double_below(Fraction(x, unit))), bits_of(double_above(Fraction(x, unit)))
            yield own_value(below) * unit <= x * ONE < own_value(below + 1) * unit, True
            yield own_value(above) * unit >= x * ONE and (above == 0 or own_value(above - 1) * unit < x * ONE), True
            yield (above - below, unit) in ((0, unit), (1, 10 ** 9)), True


def chances_between():
    """In version 1 those of the other call; in any version they enclose the figures, and are refused as these are."""
    for data in random_files(109, 240):
        for system in (0, 1, 2, 33):
            answer, packed = chance_between(data, system), rate(data, system)
            if isinstance(answer, Refusal):
                yield 2 ** 64 - 2 ** 32 + answer.number, packed
                continue
            unit, low, high = UNITS[read_deck(data).version], packed >> 32, packed & 2 ** 32 - 1
            yield Fraction(answer[0]) * unit <= low <= high <= Fraction(answer[1]) * unit, True
            if unit == UNIT:
                yield tuple(map(Fraction, answer)), chance(data, system)


GROUPS = (own_values, chances_told, whole_numbers, doubles_enclosed, widest_doubles, grid_as_figures, refusals_of_doubles, chances_of_files,
          nearest_doubles, chances_between)
