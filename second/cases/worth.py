"""Cases for the worth of a fan: what the figures are asked with (second/cases/figures.py), and the fan; they stand behind the figures' cases."""

import random
from typing import NamedTuple

from second.cases.figures import (
    Case as Asked, behind, board_number_cases, board_stretch_case, no_board_version_cases as asked_of_no_board_version, no_version_cases as asked_of_no_version,
    part, refused_board_case, refused_pair_case, same_chance_pairs, spoil, stretch_case, unread_board_case, unread_more_case, whole,
)
from second.model.calls import worth
from second.model.terms import (
    KINDS, LONGEST_WINDOW, MOST_BOARDS, MOST_PAIRS, MOST_WEIGHT, NO_KIND, PAIRS_KIND, SEVEN_KINDS, TABLE_CELLS, UNIT, UNITS, Boards, Rule,
)
from second.samples.lists import (
    BOARDED, DECIMAL, EDGE_SURVIVALS, HUGE, OVER_UNIT, WITHOUT_BOARDS, all_rules, edge_rules, edges, over, random_pairs, random_rule, random_stretch,
    random_survivals, random_weights, rule_for, rules_in_range, short_lines, two_windows, unread_weights, weights_for, weights_of_total, wrong_numbers_of_pairs,
    wrong_rules,
)

WORTH = 1  # the word `call`
OUTSIDE = 17  # the refusal of the fan
ANSWERS_WANTED = {"lower"} | {f"refused {number}" for number in (*range(1, 8), 11, OUTSIDE, 20, 21)}


class Case(NamedTuple):
    asked: Asked
    fan: int

    def words(self):
        return self.asked.words(WORTH, self.fan)

    def line(self):
        rule, a, b, room, _, *read = self.asked
        survivals, weights, version, boards = read
        return self.asked.line_of(worth(rule, a, b, self.fan, survivals, weights, room, version, boards), "lower", "upper")


def with_number(asked, fan, survival):
    """The same with another survival number of one fan."""
    survivals = list(asked.survivals)
    survivals[fan - 1] = survival
    return asked._replace(survivals=survivals)


def small_cases(rng):
    """Every rule in range for n up to 4, and every fan; for n = 5 the fans at the ends and one between."""
    for n in range(1, 6):
        weights = weights_of_total(rng, n, n + 1)
        for rule in all_rules(n, sum(weights), SEVEN_KINDS):
            read = weights if rule.kind == 2 else unread_weights(rng)
            asked = whole(rng, rule, random_survivals(rng, n), read)
            yield from (Case(asked, fan) for fan in (range(1, n + 1) if n < 5 else (1, rng.randint(2, 4), 5)))


def own_number_cases(rng):
    """The chosen fan's number at every edge of its range, and above it: the edges change no answer, what is above is refused 4."""
    for kind in SEVEN_KINDS:
        for n in (2, 5):
            weights = weights_of_total(rng, n, n + 1) if kind == 2 else []
            asked = whole(rng, random_rule(rng, kind, n, n + 1), random_survivals(rng, n), weights)
            fan = rng.randint(1, n)
            yield from (Case(with_number(asked, fan, survival), fan) for survival in EDGE_SURVIVALS + OVER_UNIT)


def long_cases(rng):
    """Random rules for larger n, and the ends of the range for n = 64."""
    for kind in SEVEN_KINDS:
        for place in range(14):
            n = rng.randint(6, 40) if place % 5 == 0 else rng.randint(6, 16)
            weights = weights_for(rng, kind, n)
            asked = whole(rng, random_rule(rng, kind, n, sum(weights)), random_survivals(rng, n), weights)
            yield Case(asked, rng.choice((1, n, rng.randint(1, n))))
        weights = weights_of_total(rng, 64, MOST_WEIGHT) if kind == 2 else []
        for rule in edge_rules(kind, 64, MOST_WEIGHT):
            yield Case(whole(rng, rule, random_survivals(rng, 64), weights), rng.choice((1, 2, 32, 63, 64)))


def sound_fan_cases(rng):
    """Lists of 64 sound fans, where both figures stand well inside the range."""
    for kind in SEVEN_KINDS:
        weights = weights_of_total(rng, 64, MOST_WEIGHT) if kind == 2 else []
        rules = rules_in_range(kind, 64, MOST_WEIGHT)
        survivals = [UNIT - rng.randrange(UNIT // 64) for _ in range(64)]
        for rule in (rules[1], rules[3]):
            yield from (Case(whole(rng, rule, survivals, weights), fan) for fan in (1, 33, 64))


def no_weight_cases(rng):
    """Kind 2: fans of no weight, whose worth lies to either side of 0, beside fans of some."""
    for _ in range(30):
        n = rng.randint(2, 12)
        weights = weights_of_total(rng, n, rng.choice((n, 40, MOST_WEIGHT)))
        light = rng.randint(1, n)
        weights[light - 1] = 0
        rule = random_rule(rng, 2, n, sum(weights)) or Rule(1, 1, 0)
        asked = whole(rng, rule, [rng.randrange(UNIT + 1) for _ in range(n)], weights)
        yield Case(asked, light)
        yield Case(asked, light % n + 1)


def harmful_fan_cases(rng):
    """Kind 3, where a fan that works can bring the number failed down to where the system fails."""
    for _ in range(40):
        n = rng.randint(1, 9)
        low = rng.randint(0, n - 1)
        asked = whole(rng, Rule(3, low, rng.randint(low, n - 1)), [rng.randrange(UNIT + 1) for _ in range(n)], unread_weights(rng))
        yield Case(asked, rng.randint(1, n))


def stretch_cases(rng):
    """Stretches inside a list: the fans at both ends of each, those just outside, and any."""
    # document 02, request 06: "17, fan number outside the stretch"
    for _ in range(110):
        n = rng.randint(1, 9)
        asked = stretch_case(rng, n)
        yield from (Case(asked, fan) for fan in sorted({asked.a, asked.b, asked.a - 1, asked.b + 1, rng.randint(1, n)}))


def outside_cases(rng):
    """Fans on no list: 0, one past the last, huge, and those that would be fan 1 if they were cut to fewer bits."""
    for n in (1, 2, 5):
        for kind in SEVEN_KINDS:
            weights = weights_of_total(rng, n, n + 1) if kind == 2 else []
            asked = whole(rng, random_rule(rng, kind, n, n + 1) or Rule(1, 1, 0), random_survivals(rng, n), weights)
            yield from (Case(asked, fan) for fan in (0, n + 1, 65, *HUGE, 2 ** 8 + 1, 2 ** 16 + 1, 2 ** 32 + 1, 2 ** 63 + 1))


def room_cases(rng):
    """Working tables of no cells, one too few, just enough and more; a table too short comes before a fan outside."""
    for kind in SEVEN_KINDS:
        weights = weights_of_total(rng, 4, 6) if kind == 2 else []
        for room in (0, TABLE_CELLS - 1, TABLE_CELLS, 8000):
            asked = whole(rng, random_rule(rng, kind, 4, 6), random_survivals(rng, 4), weights)._replace(room=room)
            yield from (Case(asked, fan) for fan in (0, rng.randint(1, 4)))


def rule_cases(rng):
    """Rules just out of range, which come before a fan outside."""
    for n in (1, 3):
        for kind in SEVEN_KINDS:
            weights = weights_of_total(rng, n, n + 1)
            for rule in wrong_rules(kind, n, n + 1):
                asked = part(rng, rule, 2, n + 1, random_survivals(rng, n + 2), [1] + weights + [1])
                yield Case(asked, rng.choice((0, 1, 2, n + 1, n + 2)))


def length_cases(rng):
    """No fans, and more than 64."""
    for n in (0, 65):
        for kind in (0, 1, 2, 5):
            asked = whole(rng, Rule(kind, 1, 0), random_survivals(rng, n), [1] * min(n, 3))
            yield from (Case(asked, fan) for fan in (0, 1, n))


def refused_cases(rng):
    """One, two or three things wrong at once, so that the first in the order must win."""
    for _ in range(300):
        n = rng.choice((1, 2, 3, 5, 7))
        a, b = random_stretch(rng, n)
        kind = rng.choice(SEVEN_KINDS)
        weights = random_weights(rng, n) if kind == 2 else unread_weights(rng)
        rule = random_rule(rng, kind, b - a + 1, sum(weights[a - 1:b])) or Rule(1, 1, 0)
        asked, fan = part(rng, rule, a, b, random_survivals(rng, n), weights), rng.randint(a, b)
        for damage in sorted(rng.sample((*range(1, 8), OUTSIDE), rng.choice((1, 2, 2, 3))), reverse=True):
            if damage == OUTSIDE:
                fan = rng.choice((0, a - 1, b + 1, *HUGE))
            else:
                asked = spoil(rng, asked, damage)
        yield Case(asked, fan)


def short_line_cases(rng):
    """Lines no longer than the window: a fan at an end, or any."""
    for n, rule in short_lines():
        yield Case(whole(rng, rule, random_survivals(rng, n), unread_weights(rng)), rng.choice((1, n, rng.randint(1, n))))


def pair_cases(rng):
    """Every single pair for n up to 4, and every fan; two to four pairs, and a fan."""
    for n in range(1, 5):
        for rule in rules_in_range(PAIRS_KIND, n, 0):
            asked = whole(rng, rule, random_survivals(rng, n), unread_weights(rng))
            yield from (Case(asked, fan) for fan in range(1, n + 1))
    for count in range(2, MOST_PAIRS + 1):
        for n in (2, 5, 8, 11, 12, 20):
            yield Case(whole(rng, random_pairs(rng, n, count), random_survivals(rng, n), []), rng.choice((1, n, rng.randint(1, n))))


def long_pair_cases(rng):
    """64 sound fans under the longest window and under the decks' own rule."""
    survivals = [UNIT - rng.randrange(UNIT // 4) for _ in range(64)]
    for rule in (Rule(PAIRS_KIND, 1, LONGEST_WINDOW), Rule(PAIRS_KIND, 5, LONGEST_WINDOW), two_windows()):
        yield from (Case(whole(rng, rule, survivals, []), fan) for fan in (1, 33, 64))


def pair_stretch_cases(rng):
    """Stretches under pairs: the fans at both ends, and those just outside."""
    for _ in range(14):
        n = rng.randint(1, 9)
        a, b = random_stretch(rng, n)
        rule = random_pairs(rng, b - a + 1, rng.randint(1, MOST_PAIRS))
        asked = part(rng, rule, a, b, random_survivals(rng, n), unread_weights(rng))
        yield from (Case(asked, fan) for fan in sorted({a, b, a - 1, b + 1}))


def wrong_pair_cases(rng):
    """Pairs out of range, and too many or half a pair, which come before a fan outside; others wrong things beside pairs; numbers that are not read."""
    for n in (1, 4):
        for rule in (*wrong_rules(PAIRS_KIND, n, 0)[:8], *wrong_numbers_of_pairs(rng, n)):
            yield Case(whole(rng, rule, random_survivals(rng, n), []), rng.randint(0, n + 1))
    for _ in range(40):
        asked = refused_pair_case(rng, sorted(rng.sample((1, 2, 3, 4, 6, 7), rng.choice((0, 1, 2))), reverse=True))
        yield Case(asked, rng.choice((0, asked.a, asked.b, asked.b + 1, *HUGE)))
    for kind in SEVEN_KINDS:
        yield from (Case(unread_more_case(rng, kind, n), rng.randint(1, n)) for n in (3, 7))
    yield Case(whole(rng, Rule(NO_KIND, 1, 1, (1, 1)), [1] * 3, []), 0)


def decimal_small_cases(rng):
    """Version 2: every rule in range for n up to 3, of every kind, and every fan of n up to 2; for n = 3 one of them."""
    for n in range(1, 4):
        weights = weights_of_total(rng, n, n + 1)
        for rule in all_rules(n, sum(weights)):
            read = weights if rule.kind == 2 else unread_weights(rng)
            asked = whole(rng, rule, random_survivals(rng, n, UNITS[DECIMAL]), read, DECIMAL)
            yield from (Case(asked, fan) for fan in (range(1, n + 1) if n < 3 else (rng.randint(1, 3),)))


def decimal_long_cases(rng):
    """Version 2: random rules for larger n, and 64 sound fans."""
    unit = UNITS[DECIMAL]
    for kind in KINDS:
        for n in (rng.randint(4, 9), rng.randint(4, 9), rng.randint(10, 24)):
            weights = weights_for(rng, kind, n)
            asked = whole(rng, rule_for(rng, kind, n, weights), random_survivals(rng, n, unit), weights, DECIMAL)
            yield Case(asked, rng.choice((1, n, rng.randint(1, n))))
        weights = weights_of_total(rng, 64, MOST_WEIGHT) if kind == 2 else []
        survivals = [unit - rng.randrange(unit // 64) for _ in range(64)]
        yield Case(whole(rng, rules_in_range(kind, 64, MOST_WEIGHT)[1], survivals, weights, DECIMAL), rng.choice((1, 33, 64)))


def decimal_stretch_cases(rng):
    """Version 2: stretches, with the fans at both ends of each and those just outside."""
    for _ in range(12):
        asked = stretch_case(rng, rng.randint(1, 9), DECIMAL)
        yield from (Case(asked, fan) for fan in sorted({asked.a, asked.b, asked.a - 1, asked.b + 1}))


def decimal_own_number_cases(rng):
    """Version 2: the chosen fan's number at every edge of the unit, and above it, up to version 1's unit and past it."""
    unit = UNITS[DECIMAL]
    for kind in KINDS:
        weights = [1, 2, 0] if kind == 2 else []
        asked = whole(rng, rule_for(rng, kind, 3, weights), random_survivals(rng, 3, unit), weights, DECIMAL)
        fan = rng.randint(1, 3)
        yield from (Case(with_number(asked, fan, survival), fan) for survival in edges(unit) + over(unit))


def no_version_cases(rng):
    """Versions that there are none of, with other things wrong or none, and a fan in the stretch or outside."""
    yield from (Case(asked, rng.choice((0, 1, 3, 4))) for asked in list(asked_of_no_version(rng))[::3])


def same_chance_cases(rng):
    """The same chances in version 1 and in version 2, and one fan."""
    for pair in same_chance_pairs():
        fan = rng.randint(1, len(pair[0].survivals))
        yield from (Case(asked, fan) for asked in pair)


def board_small_cases(rng):
    """Version 3: every rule in range for n up to 2, of every kind, and every fan, behind one to four boards by turns."""
    for n in (1, 2):
        weights = weights_of_total(rng, n, n + 1)
        for place, rule in enumerate(all_rules(n, sum(weights))):
            read = weights if rule.kind == 2 else unread_weights(rng)
            asked = behind(rng, rule, random_survivals(rng, n, UNITS[BOARDED]), read, 1 + place % MOST_BOARDS)
            yield from (Case(asked, fan) for fan in range(1, n + 1))


def board_kind_cases(rng):
    """Version 3: every kind behind each number of boards, and longer lists."""
    unit = UNITS[BOARDED]
    for kind in KINDS:
        for g in range(1, MOST_BOARDS + 1):
            n = rng.randint(3, 8)
            weights = weights_for(rng, kind, n)
            asked = behind(rng, rule_for(rng, kind, n, weights), [rng.randrange(unit + 1) for _ in range(n)], weights, g)
            yield Case(asked, rng.randint(1, n))
        n = rng.randint(10, 24)
        weights = weights_for(rng, kind, n)
        yield Case(behind(rng, rule_for(rng, kind, n, weights), random_survivals(rng, n, unit), weights), rng.choice((1, n, rng.randint(1, n))))


def own_board_cases(rng):
    """A fan whose own board stands at an edge of the unit, and above it, and a fan on no board beside it: one that is sure to work may lose its board."""
    # document 02, request 11: "a fan sure to work may still lose its board"
    unit = UNITS[BOARDED]
    for survival in edges(unit) + over(unit):
        for rule in (Rule(1, 1, 0), Rule(4, 2, 0)):
            asked = whole(rng, rule, random_survivals(rng, 3, unit), [], BOARDED)._replace(boards=Boards([1, 0, 2], [survival, rng.randrange(unit)]))
            yield from (Case(asked, fan) for fan in (1, 2))


def board_stretch_cases(rng):
    """Version 3: stretches, with the fans at both ends of each and those just outside; board numbers above g inside and outside."""
    for _ in range(12):
        asked = board_stretch_case(rng, rng.randint(1, 9))
        yield from (Case(asked, fan) for fan in sorted({asked.a, asked.b, asked.a - 1, asked.b + 1}))
    yield from (Case(asked, rng.randint(1, 4)) for asked in list(board_number_cases(rng))[1::3])


def refused_board_cases(rng):
    """Version 3: things wrong at once, and a fan in the stretch or outside; versions without boards, or none at all, beside boards' lists."""
    for _ in range(60):
        asked = refused_board_case(rng, rng.choice((0, 1, 2, 3)))
        yield Case(asked, rng.choice((0, asked.a, asked.b, asked.b + 1, HUGE[-1])))
    for kind in KINDS:
        yield from (Case(unread_board_case(rng, kind, version), rng.randint(0, 4)) for version in WITHOUT_BOARDS)
    yield from (Case(asked, rng.choice((0, 1, 2))) for asked in list(asked_of_no_board_version(rng))[::2])


def make_cases():
    rng = random.Random(606)
    makers = (small_cases, own_number_cases, long_cases, sound_fan_cases, no_weight_cases, harmful_fan_cases, stretch_cases, outside_cases,
              room_cases, rule_cases, length_cases, refused_cases, short_line_cases, pair_cases, long_pair_cases, pair_stretch_cases,
              wrong_pair_cases, decimal_small_cases, decimal_long_cases, decimal_stretch_cases, decimal_own_number_cases, no_version_cases,
              same_chance_cases, board_small_cases, board_kind_cases, own_board_cases, board_stretch_cases, refused_board_cases)
    return [case for maker in makers for case in maker(rng)]
