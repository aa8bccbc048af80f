"""Doubles to draw from, by their bits, shared by the checks and the tests."""

from math import inf, nextafter

from second.model.doubles import bits_of
from second.model.terms import KINDS, MOST_FANS, MOST_PAIRS, NO_KIND, PAIRS_KIND, UNIT, Rule
from second.samples.lists import random_pairs, random_rule, random_stretch, random_weights

NEGATIVE = 2 ** 63
INFINITE = 2047 << 52
SMALLEST, LARGEST_SUBNORMAL, SMALLEST_NORMAL = 1, 2 ** 52 - 1, 2 ** 52
ONE = bits_of(1.0)
# A chance, and no chance: just past 1, huge, infinite, NaNs of both signs with payloads, and all but the first of the negative ones.
CHANCES = (0, NEGATIVE, SMALLEST, LARGEST_SUBNORMAL, SMALLEST_NORMAL, bits_of(2.0 ** -31), bits_of(2.0 ** -30), bits_of(1.5 * 2.0 ** -30), bits_of(0.1),
           bits_of(0.5), bits_of(1 - 2.0 ** -30), bits_of(1 - 2.0 ** -31), ONE - 1, ONE)
NANS = tuple(sign + INFINITE + payload for sign in (0, NEGATIVE) for payload in (1, 2 ** 51 - 1, 2 ** 51, 2 ** 51 + 12345, 2 ** 52 - 1))
NO_CHANCES = (ONE + 1, ONE + 2 ** 51, bits_of(2.0), bits_of(2.0 ** 30), INFINITE - 1, INFINITE, NEGATIVE + INFINITE, NEGATIVE + SMALLEST,
              NEGATIVE + SMALLEST_NORMAL, NEGATIVE + bits_of(0.5), NEGATIVE + ONE, *NANS)


def grid_point(whole):
    return bits_of(whole / UNIT)


def about_grid(whole):
    """A point of the grid and the doubles on either side of it, as far as they are chances."""
    at = whole / UNIT
    return [bits_of(number) for number in (nextafter(at, -inf), at, nextafter(at, inf)) if 0 <= number <= 1]


def grid_points(rng, count):
    """The ends of the grid, and points of it at random."""
    return [0, 1, 2, 3, UNIT // 2, UNIT - 2, UNIT - 1, UNIT, *(rng.randint(0, UNIT) for _ in range(count))]


def random_double(rng):
    """A chance: on the grid, beside it, at an edge, or anywhere at all."""
    manner = rng.randrange(5)
    if manner == 0:
        return grid_point(rng.choice((0, 1, UNIT, rng.randint(0, UNIT), rng.randint(0, UNIT))))
    if manner == 1:
        return rng.choice(about_grid(rng.randint(0, UNIT)))
    if manner == 2:
        return rng.choice(CHANCES)
    if manner == 3:
        return bits_of(rng.random())
    return rng.randrange(ONE + 1)


def random_doubles(rng, n, kind):
    """A list of chances; under kind 3, which is answered there alone, mostly on the grid."""
    if kind == 3 and rng.random() < 0.8:
        return [grid_point(rng.choice((0, UNIT, rng.randint(0, UNIT)))) for _ in range(n)]
    return [random_double(rng) for _ in range(n)]


def random_plan(rng, most=MOST_FANS):
    """What the office asks, accepted unless its stretch leaves the kind no rule: rule, a, b, doubles, weights."""
    n = rng.choice((1, 2, 3, rng.randint(1, 12), rng.randint(1, most)))
    n = min(n, most)
    weights = random_weights(rng, n)
    a, b = random_stretch(rng, n)
    kind, size, total = rng.choice(KINDS), b - a + 1, sum(weights[a - 1:b])
    rule = random_pairs(rng, size, rng.randint(1, MOST_PAIRS)) if kind == PAIRS_KIND else random_rule(rng, kind, size, total)
    rule = rule or Rule(1, 1, 0)
    doubles = random_doubles(rng, n, rule.kind)
    for place in range(n):
        if not a <= place + 1 <= b and rng.random() < 0.5:
            doubles[place] = rng.choice(NO_CHANCES)  # not read
    return rule, a, b, doubles, weights


# ---- what is wrong with a plan, one thing each -------------------------------


def wrong_kind(rng, rule, a, b, doubles, weights):
    return rule._replace(kind=rng.choice((0, NO_KIND, 2 ** 32 + 1, 2 ** 64 - 1))), a, b, doubles, weights


def wrong_size(rng, rule, a, b, doubles, weights):
    return rule, a, b, rng.choice(([], (doubles or [0])[:1] * 65, (doubles or [0])[:1] * 1000)), weights


def wrong_stretch(rng, rule, a, b, doubles, weights):
    return rule, *rng.choice(((0, b), (b + 1, b), (a, len(doubles) + 1), (2 ** 64 - 1, 2 ** 64 - 1), (1, 2 ** 64 - 1), (0, 0))), doubles, weights


def no_chance(rng, rule, a, b, doubles, weights):
    """A double of the stretch that is none; of a stretch that is not on the list, any."""
    place = rng.randint(a, b) - 1 if 1 <= a <= b <= len(doubles) else rng.randrange(max(len(doubles), 1))
    return rule, a, b, [rng.choice(NO_CHANCES) if at == place else bits for at, bits in enumerate(doubles)], weights


def wrong_weights(rng, rule, a, b, doubles, weights):
    kind = rule._replace(kind=2) if rule.kind in KINDS and rng.random() < 0.7 else rule
    return kind, a, b, doubles, rng.choice((weights[1:], weights + [1], [], [65535] * len(weights)))


def wrong_numbers(rng, rule, a, b, doubles, weights):
    number = rng.choice((0, 65, 121, 2 ** 32, 2 ** 64 - 1))
    return rule._replace(**{rng.choice(("first", "second")): number}), a, b, doubles, weights


def off_grid(rng, rule, a, b, doubles, weights):
    """Kind 3, in range unless its numbers are wrong too, with a double beside the grid."""
    size = b - a + 1 if 1 <= a <= b else 1
    numbers = rule if rule.kind == 3 else Rule(3, 0, min(size, 64))
    place = rng.randint(a, b) - 1 if 1 <= a <= b <= len(doubles) else 0
    beside = rng.choice((SMALLEST, ONE - 1, bits_of(2.0 ** -31), bits_of(0.1)))
    return numbers, a, b, [beside if at == place else bits for at, bits in enumerate(doubles)], weights


WRONGS = (off_grid, wrong_numbers, wrong_weights, no_chance, wrong_stretch, wrong_size, wrong_kind)


def wrong_plans(rng, count):
    """Plans with every choice of things wrong, so that the order of the refusals shows."""
    for place in range(count):
        plan = random_plan(rng)
        for at, wrong in enumerate(WRONGS):
            if place >> at & 1:
                plan = wrong(rng, *plan)
        yield plan
