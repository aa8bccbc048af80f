"""Cases for the figures of a stretch; a whole list is its stretch 1 to n.

Words of a case: call (0 the figures, 1 the worth of a fan), version, kind, first, second, a, b, fan (0 for the figures), room, seed, N, the
survival numbers, W, the weights, M, the numbers of further pairs, B, the fans' board numbers, G, the boards' survival numbers. second/cases/worth.py has
the cases of call 1, which stand behind these in the same file.
"""

import random
from typing import NamedTuple

from second.cases.words import checksum_after
from second.model.calls import figures
from second.model.terms import (
    KINDS, LONGEST_WINDOW, MOST_BOARDS, MOST_PAIRS, MOST_WEIGHT, NO_BOARDS, NO_KIND, PAIRS_KIND, SEVEN_KINDS, TABLE_CELLS, UNIT, UNITS, Boards, Refusal, Rule,
)
from second.samples import published
from second.samples.lists import (
    BINARY, BOARDED, DECIMAL, EDGE_SURVIVALS, HUGE, NO_VERSIONS, OVER_UNIT, WITHOUT_BOARDS, all_rules, edge_rules, edges, far_too_many_pairs, over,
    random_boards, random_pairs, random_rule, random_stretch, random_survivals, random_weights, rule_for, rules_in_range, same_chances, short_lines,
    two_windows, unread_boards, unread_more, unread_weights, weights_for, weights_of_total, wrong_further_pairs, wrong_numbers_of_pairs, wrong_rules,
)

FIGURES = 0  # the word `call`
ANSWERS_WANTED = {"low"} | {f"refused {number}" for number in (*range(1, 8), 11, 20, 21)}
SEEDS = (0, 1, 3, 2 ** 32, 2 ** 63, 2 ** 64 - 1, 2685821657736338717)


class Case(NamedTuple):
    rule: Rule
    a: int
    b: int
    room: int
    seed: int
    survivals: list
    weights: list
    version: int = BINARY
    boards: Boards = NO_BOARDS

    def words(self, call=FIGURES, fan=0):
        lists = self.survivals, self.weights, self.rule.more, *self.boards
        return [call, self.version, *self.rule.numbers, self.a, self.b, fan, self.room, self.seed,
                *(word for numbers in lists for word in (len(numbers), *numbers))]

    def answer(self):
        return figures(self.rule, self.a, self.b, self.survivals, self.weights, self.room, self.version, self.boards)

    def line_of(self, answer, first, second):
        """The line of an answer whose two ends have these names."""
        refused = isinstance(answer, Refusal)
        cells = f"cells {checksum_after(self.seed, self.room, not refused)}"
        return f"refused {answer.number} {cells}" if refused else f"{first} {answer[0]} {second} {answer[1]} {cells}"

    def line(self):
        return self.line_of(self.answer(), "low", "high")


def published_cases():
    """What the documents print, each on a table full of rubbish."""
    return [Case(one.rule, 1, len(one.survivals), TABLE_CELLS, SEEDS[1], one.survivals, one.weights) for one in published.FIGURES]


def whole(rng, rule, survivals, weights, version=BINARY):
    """A whole list, with a working table that is long enough."""
    room = rng.choice((TABLE_CELLS, TABLE_CELLS, 8000))
    return Case(rule, 1, len(survivals), room, rng.choice(SEEDS), survivals, weights, version)


def part(rng, rule, a, b, survivals, weights, version=BINARY):
    return whole(rng, rule, survivals, weights, version)._replace(a=a, b=b)


def small_cases(rng):
    """Every rule in range for n up to 6, under several lists of survival numbers."""
    for n in range(1, 7):
        for _ in range(4 if n < 5 else 2):
            weights = weights_of_total(rng, n, n + 1)
            for rule in all_rules(n, sum(weights), SEVEN_KINDS):
                read = weights if rule.kind == 2 else unread_weights(rng)
                yield whole(rng, rule, random_survivals(rng, n), read)


def alike_cases(rng):
    """All survival numbers at one edge of their range, and S + 1 beside them."""
    for survival in EDGE_SURVIVALS + OVER_UNIT:
        for kind in SEVEN_KINDS:
            for n in (2, 3, 5, 9):
                weights = [1] * n if kind == 2 else []
                yield whole(rng, random_rule(rng, kind, n, n), [survival] * n, weights)


def every_length_cases(rng):
    for n in range(1, 65):
        for kind in rng.sample(SEVEN_KINDS, 2):
            weights = weights_for(rng, kind, n)
            rule = random_rule(rng, kind, n, sum(weights)) or Rule(5, 1, 0)
            yield whole(rng, rule, random_survivals(rng, n), weights)


def long_cases(rng):
    """Random rules for larger n, and the ends of the range for n = 63 and 64."""
    for kind in SEVEN_KINDS:
        for place in range(24):
            n = rng.randint(7, 64) if place % 3 == 0 else rng.randint(7, 24)
            weights = weights_for(rng, kind, n)
            yield whole(rng, random_rule(rng, kind, n, sum(weights)), random_survivals(rng, n), weights)
        for n in (63, 64):
            weights = weights_of_total(rng, n, MOST_WEIGHT) if kind == 2 else []
            for rule in edge_rules(kind, n, MOST_WEIGHT):
                yield whole(rng, rule, random_survivals(rng, n), weights)


def sound_fan_cases(rng):
    """Lists of 64 sound fans, where low and high stand well inside the range."""
    for kind in SEVEN_KINDS:
        weights = weights_of_total(rng, 64, MOST_WEIGHT) if kind == 2 else []
        rules = rules_in_range(kind, 64, MOST_WEIGHT)
        for rule in (rules[0], rules[1], rules[3], rng.choice(rules)):
            yield whole(rng, rule, [UNIT - rng.randrange(UNIT // 64) for _ in range(64)], weights)


def weight_cases(rng):
    """Totals of 120 and 121, zero weights, and lists of the wrong length."""
    # document 01, 'Refusal numbers', row 5
    for n in (1, 2, 3, 6, 20):
        for total in (119, MOST_WEIGHT, MOST_WEIGHT + 1):
            weights = weights_of_total(rng, n, total)
            for first in (1, 61, 119, 120, 121):
                yield whole(rng, Rule(2, first, 0), random_survivals(rng, n), weights)
        for weights in ([], [1] * (n - 1), [1] * (n + 1), [0] * n, [65535] * n, [0] * (n - 1) + [2]):
            yield whole(rng, Rule(2, 1, 0), random_survivals(rng, n), weights)
            yield part(rng, Rule(2, 1, 0), 1, rng.randint(1, n), random_survivals(rng, n), weights)


def stretch_case(rng, n, version=BINARY):
    """A stretch of a list of n fans; what stands outside must not be read."""
    # document 01, 'Stretches': "Components and weights outside it are not read"
    a, b = random_stretch(rng, n)
    kind = rng.choice(SEVEN_KINDS)
    survivals = random_survivals(rng, n, UNITS[version])
    weights = random_weights(rng, n) if kind == 2 else unread_weights(rng)
    rule = random_rule(rng, kind, b - a + 1, sum(weights[a - 1:b])) or Rule(4, 1, 0)
    for outside in [*range(a - 1), *range(b, n)]:
        survivals[outside] = rng.choice(over(UNITS[version]) + (7,))
        if kind == 2:
            weights[outside] = rng.choice((0, 121, 65535))
    return part(rng, rule, a, b, survivals, weights, version)


def stretch_cases(rng):
    """Stretches inside, whole and of a single fan."""
    for place in range(420):
        yield stretch_case(rng, rng.randint(1, 14) if place % 10 else rng.choice((40, 63, 64)))


def rule_cases(rng):
    """Rules just out of range, for a whole list and for a stretch of a longer one."""
    # document 01, 'Refusal numbers', row 6: "a stretch uses its own length"
    for n in (1, 2, 3, 5):
        for kind in SEVEN_KINDS:
            weights = weights_of_total(rng, n, n + 1)
            for rule in wrong_rules(kind, n, n + 1):
                yield whole(rng, rule, random_survivals(rng, n), weights)
                yield part(rng, rule, 2, n + 1, random_survivals(rng, n + 3), [1] + weights + [1, 1])


def between_others(case):
    """The same fans with one more on either side, which is not read."""
    beside, heavy = OVER_UNIT[0], MOST_WEIGHT + 1
    weights = [heavy, *case.weights, heavy] if case.rule.kind == 2 else case.weights
    return case._replace(a=case.a + 1, b=case.b + 1, survivals=[beside, *case.survivals, beside], weights=weights)


def room_cases(rng):
    """Working tables of no cells, one too few, just enough and more."""
    # document 01, 'Refusal numbers', row 7
    for kind in SEVEN_KINDS:
        weights = weights_of_total(rng, 4, 6) if kind == 2 else []
        for room in (0, TABLE_CELLS - 1, TABLE_CELLS, 8000):
            case = whole(rng, random_rule(rng, kind, 4, 6), random_survivals(rng, 4), weights)
            yield case._replace(room=room)
            yield between_others(case)._replace(room=room)


def wrong_stretch_cases(rng):
    # document 01, 'Refusal numbers', row 3
    for n in (1, 2, 5, 9):
        ends = [(1, n), (n, n), (0, n), (0, 0), (1, 0), (n, n - 1)]
        ends += [(1, n + 1), (n + 1, n + 1), (n + 1, n)]
        ends += [(1, number) for number in HUGE] + [(number, number) for number in HUGE]
        ends += [(2 ** 64 - 1, 1), (2 ** 64 - 1, 0), (0, 2 ** 64 - 1)]
        for a, b in ends:
            yield part(rng, Rule(rng.choice((1, 4, 5)), 1, 0), a, b, random_survivals(rng, n), [])


def survival_cases(rng):
    """One survival number above S, inside or outside what is read."""
    # document 01, 'Refusal numbers', row 4
    for n in (1, 2, 4, 8):
        for place in range(n):
            for survival in OVER_UNIT + (UNIT,):
                survivals = random_survivals(rng, n)
                survivals[place] = survival
                a, b = random_stretch(rng, n)
                yield whole(rng, Rule(1, 1, 0), survivals, [])
                yield part(rng, Rule(5, 1, 0), a, b, survivals, [])


def length_cases(rng):
    # document 01, 'Refusal numbers', row 2
    for n in (0, 65, 70):
        for kind in (0, 1, 2, 5, 7):
            survivals = random_survivals(rng, n)
            yield whole(rng, Rule(kind, 1, 0), survivals, [1] * min(n, 3))
            yield part(rng, Rule(kind, 1, 0), rng.choice((0, 1)), n, survivals, [1] * min(n, 3))


def spoil(rng, case, damage):
    """The case with one thing made wrong."""
    rule, n = case.rule, len(case.survivals)
    if damage == 1:
        return case._replace(rule=rule._replace(kind=rng.choice((0, PAIRS_KIND, NO_KIND, 255) + HUGE)))
    if damage == 2:
        return case._replace(survivals=[])
    if damage == 3:
        return case._replace(a=rng.choice((0, case.b + 1)))
    if damage == 4:
        survivals = list(case.survivals)
        survivals[rng.randrange(n)] = rng.choice(over(UNITS[case.version]))
        return case._replace(survivals=survivals)
    if damage == 5:
        wrong = rng.choice(([], [121], [121] * n, [1] * (n + 1)))
        return case._replace(rule=Rule(2, 1, 0), weights=wrong)
    if damage == 6:
        field, number = rng.choice(("first", "second")), rng.choice((0, n + 1, 65, 121) + HUGE)
        return case._replace(rule=rule._replace(**{field: number}))
    return case._replace(room=rng.choice((0, TABLE_CELLS - 1)))


def refused_cases(rng):
    """One, two or three things wrong at once, so that the lowest number must win."""
    for _ in range(520):
        n = rng.choice((1, 2, 3, 5, 7, 10))
        inside = rng.random() < 0.6
        a, b = random_stretch(rng, n) if inside else (1, n)
        kind = rng.choice(SEVEN_KINDS)
        weights = random_weights(rng, n) if kind == 2 else unread_weights(rng)
        rule = random_rule(rng, kind, b - a + 1, sum(weights[a - 1:b])) or Rule(1, 1, 0)
        case = part(rng, rule, a, b, random_survivals(rng, n), weights)
        for damage in sorted(rng.sample(range(1, 8), rng.choice((1, 1, 2, 3))), reverse=True):
            # a whole list stays one
            if inside or damage != 3:
                case = spoil(rng, case, damage)
        yield case if inside else case._replace(b=len(case.survivals))


def short_line_cases(rng):
    """Lines no longer than the window, by themselves and between other fans; a stretch of three under a window of four."""
    for n, rule in short_lines():
        case = whole(rng, rule, random_survivals(rng, n), unread_weights(rng))
        yield case if rng.random() < 0.5 else between_others(case)
    yield part(rng, Rule(6, 2, 4), 2, 4, [UNIT // 2] * 5, [])


def single_pair_cases(rng):
    """Every single pair for n up to 8; for n = 64 those of the longest window, and for n = 10 too, as long as the line."""
    for n in range(1, 9):
        for rule in rules_in_range(PAIRS_KIND, n, 0):
            yield whole(rng, rule, random_survivals(rng, n), unread_weights(rng))
    for n in (LONGEST_WINDOW, 64):
        for k in range(1, LONGEST_WINDOW + 1):
            yield whole(rng, Rule(PAIRS_KIND, k, LONGEST_WINDOW), [rng.randrange(UNIT + 1) for _ in range(n)], [])


def many_pair_cases(rng):
    """Two to four pairs, some given twice, over short lists and a few long ones; the decks' own rule."""
    for count in range(2, MOST_PAIRS + 1):
        for n in (*range(1, 13), rng.randint(13, 62), 63, 64):
            yield whole(rng, random_pairs(rng, n, count), random_survivals(rng, n), [])
    for n in (8, 9, 64):
        yield whole(rng, two_windows(), [UNIT - rng.randrange(UNIT // 4) for _ in range(n)], [])


def pair_edge_cases(rng):
    """All survival numbers at one edge of their range, and above it; working tables too short, just enough and longer."""
    for survival in EDGE_SURVIVALS + OVER_UNIT:
        yield whole(rng, random_pairs(rng, 9, rng.randint(1, MOST_PAIRS)), [survival] * 9, [])
    for room in (0, TABLE_CELLS - 1, TABLE_CELLS, 8000):
        yield whole(rng, random_pairs(rng, 5, 2), random_survivals(rng, 5), [])._replace(room=room)


def pair_stretch_cases(rng):
    """Stretches, whose length the windows may not pass, in lists whose other fans are not read."""
    for _ in range(40):
        n = rng.randint(2, 12)
        a, b = random_stretch(rng, n)
        size = b - a + 1
        rule = random_pairs(rng, size, rng.randint(1, MOST_PAIRS))
        if rng.random() < 0.3:
            rule = rule._replace(second=size + 1)
        survivals = [survival if a <= fan <= b else rng.choice(OVER_UNIT) for fan, survival in enumerate(random_survivals(rng, n), 1)]
        yield part(rng, rule, a, b, survivals, unread_weights(rng))


def wrong_pair_cases(rng):
    """Pairs out of range, first or further; too many pairs, and half a pair."""
    for n in (1, 4, 11):
        for rule in (*wrong_rules(PAIRS_KIND, n, 0), *wrong_further_pairs(rng, n), *wrong_numbers_of_pairs(rng, n)):
            yield whole(rng, rule, random_survivals(rng, n), [])
    yield whole(rng, far_too_many_pairs(), random_survivals(rng, 3), [])


def refused_pair_case(rng, damages):
    """A stretch under pairs, with so many things wrong as are listed."""
    n = rng.choice((1, 2, 3, 5, 7, 10))
    a, b = random_stretch(rng, n)
    case = part(rng, random_pairs(rng, b - a + 1, rng.randint(1, MOST_PAIRS)), a, b, random_survivals(rng, n), unread_weights(rng))
    for damage in damages:
        case = spoil(rng, case, damage)
    return case


def refused_pair_cases(rng):
    """One, two or three things wrong at once, under pairs."""
    for _ in range(90):
        yield refused_pair_case(rng, sorted(rng.sample((1, 2, 3, 4, 6, 7), rng.choice((1, 1, 2, 3))), reverse=True))


def unread_more_case(rng, kind, n):
    """Numbers beside a rule of another kind, which are not read."""
    weights = weights_for(rng, kind, n)
    rule = (random_rule(rng, kind, n, sum(weights)) or Rule(1, 1, 0))._replace(more=unread_more(rng))
    return whole(rng, rule, random_survivals(rng, n), weights)


def unread_more_cases(rng):
    """The same for every kind; the kind above them is none, whatever stands beside it."""
    for kind in SEVEN_KINDS:
        yield from (unread_more_case(rng, kind, n) for n in (2, 5, 9))
    for n in (0, 1, 3, 65):
        yield from (whole(rng, Rule(NO_KIND, 1, 1, more), [1] * n, []) for more in ((), unread_more(rng)))


def refit_cases(rng):
    """Lists before a refit and after it, with some fans better: under kind 3, docs/DECISIONS.md's that falls."""
    for second in (UNIT // 4, UNIT // 2):
        yield whole(rng, Rule(3, 1, 1), [UNIT // 4, second], [])
    for kind in (1, 2, 4, 5, 6, 7, PAIRS_KIND):
        weights = weights_for(rng, kind, 9)
        rule = random_rule(rng, kind, 9, sum(weights)) or Rule(1, 1, 0)
        worn = random_survivals(rng, 9)
        for survivals in (worn, [rng.randint(survival, UNIT) if rng.random() < 0.5 else survival for survival in worn]):
            yield whole(rng, rule, survivals, weights)


def decimal_small_cases(rng):
    """Version 2: every rule in range for n up to 3, of every kind."""
    # document 02, request 08: "Conditions two and three read S as the file's own unit"
    for n in range(1, 4):
        weights = weights_of_total(rng, n, n + 1)
        for rule in all_rules(n, sum(weights)):
            read = weights if rule.kind == 2 else unread_weights(rng)
            yield whole(rng, rule, random_survivals(rng, n, UNITS[DECIMAL]), read, DECIMAL)


def decimal_long_cases(rng):
    """Version 2: random rules for larger n, and 64 sound fans, where low and high stand well inside the range."""
    unit = UNITS[DECIMAL]
    for kind in KINDS:
        for n in (rng.randint(5, 12), rng.randint(5, 12), rng.randint(13, 40)):
            weights = weights_for(rng, kind, n)
            yield whole(rng, rule_for(rng, kind, n, weights), random_survivals(rng, n, unit), weights, DECIMAL)
        weights = weights_of_total(rng, 64, MOST_WEIGHT) if kind == 2 else []
        survivals = [unit - rng.randrange(unit // 64) for _ in range(64)]
        yield whole(rng, rules_in_range(kind, 64, MOST_WEIGHT)[3], survivals, weights, DECIMAL)


def decimal_stretch_cases(rng):
    """Version 2: stretches, with fans outside that only version 1's unit would let in, or neither."""
    yield from (stretch_case(rng, rng.randint(1, 14), DECIMAL) for _ in range(30))


def unit_cases(rng):
    """All survival numbers at one edge of either unit, read in both versions."""
    # document 02, request 08: "4 against the file's unit"
    unit = UNITS[DECIMAL]
    for kind in KINDS:
        weights = [1, 2, 0] if kind == 2 else []
        rule = rule_for(rng, kind, 3, weights)
        yield from (whole(rng, rule, [survival] * 3, weights, DECIMAL) for survival in edges(unit) + over(unit))
        yield from (whole(rng, rule, [survival] * 3, weights) for survival in (unit, unit + 1, UNIT))


def lone_number_cases(rng):
    """One survival number about either unit among fans sure to fail, inside or outside what is read, in both versions."""
    for version in WITHOUT_BOARDS:
        for survival in (UNITS[other] + more for other in WITHOUT_BOARDS for more in (-1, 0, 1)):
            for place in range(3):
                survivals = [0] * 3
                survivals[place] = survival
                yield part(rng, Rule(1, 2, 0), 2, 3, survivals, [], version)


def decimal_refused_cases(rng):
    """Version 2: one, two or three things wrong at once."""
    for _ in range(50):
        n = rng.choice((1, 2, 3, 5, 7))
        a, b = random_stretch(rng, n)
        kind = rng.choice(KINDS)
        weights = weights_for(rng, kind, n)
        rule = rule_for(rng, kind, b - a + 1, weights[a - 1:b])
        case = part(rng, rule, a, b, random_survivals(rng, n, UNITS[DECIMAL]), weights, DECIMAL)
        for damage in sorted(rng.sample(range(1, 8), rng.choice((1, 1, 2, 3))), reverse=True):
            case = spoil(rng, case, damage)
        yield case


def no_version_cases(rng):
    """Versions that there are none of: nothing else wrong, one thing, and three at once, which all come after."""
    # document 02, request 08: 11 "first where it is an input"; request 11: "11 for versions not 1..3"
    for version in NO_VERSIONS:
        for damages in ((), *((damage,) for damage in range(1, 8)), (7, 4, 1), (7, 6, 2)):
            case = whole(rng, Rule(1, 1, 0), random_survivals(rng, 3), [])
            for damage in damages:
                case = spoil(rng, case, damage)
            yield case._replace(version=version)


def same_chance_pairs():
    """The same chances in version 1 and in version 2, two cases each; second/checks sees that their answers enclose one exact sum."""
    rng = random.Random(308)
    for kind in KINDS:
        for n in (2, 6, 9):
            weights = weights_for(rng, kind, n)
            rule = rule_for(rng, kind, n, weights)
            yield [whole(rng, rule, survivals, weights, version) for version, survivals in same_chances(rng, n).items()]


def same_chance_cases(rng):
    yield from (case for pair in same_chance_pairs() for case in pair)


def behind(rng, rule, survivals, weights, g=None):
    """A whole list behind so many boards, or any number of them."""
    return whole(rng, rule, survivals, weights, BOARDED)._replace(boards=random_boards(rng, len(survivals), g))


def board_small_cases(rng):
    """Version 3: every rule in range for n up to 3, of every kind, behind one to four boards by turns."""
    # document 02, request 11: "a deck has g boards, 1 to 4"
    for n in range(1, 4):
        weights = weights_of_total(rng, n, n + 1)
        for place, rule in enumerate(all_rules(n, sum(weights))):
            read = weights if rule.kind == 2 else unread_weights(rng)
            yield behind(rng, rule, random_survivals(rng, n, UNITS[BOARDED]), read, 1 + place % MOST_BOARDS)


def board_kind_cases(rng):
    """Version 3: every kind behind each number of boards, longer lists, and 64 sound fans behind four boards in rows and in turn."""
    unit = UNITS[BOARDED]
    for kind in KINDS:
        for g in range(1, MOST_BOARDS + 1):
            n = rng.randint(4, 9)
            weights = weights_for(rng, kind, n)
            yield behind(rng, rule_for(rng, kind, n, weights), [rng.randrange(unit + 1) for _ in range(n)], weights, g)
        n = rng.randint(10, 40)
        weights = weights_for(rng, kind, n)
        yield behind(rng, rule_for(rng, kind, n, weights), random_survivals(rng, n, unit), weights)
        weights = weights_of_total(rng, 64, MOST_WEIGHT) if kind == 2 else []
        fans, own = ([unit - rng.randrange(unit // 64) for _ in range(count)] for count in (64, MOST_BOARDS))
        on = [1 + fan // 16 for fan in range(64)] if kind % 2 else [fan % 5 for fan in range(64)]
        yield whole(rng, rules_in_range(kind, 64, MOST_WEIGHT)[3], fans, weights, BOARDED)._replace(boards=Boards(on, own))


def board_edge_cases(rng):
    """Boards whose survival numbers stand at an edge of the unit, and above it, all of them and one of them; a board that no fan is on too."""
    # document 02, request 11: "4 for any board's survival number too"
    unit = UNITS[BOARDED]
    for kind in KINDS:
        weights = [1, 2, 0] if kind == 2 else []
        rule = rule_for(rng, kind, 3, weights)
        for survival in edges(unit) + over(unit):
            one = [rng.randrange(unit + 1), survival, rng.randrange(unit + 1)]
            on, own = rng.choice((([1, 2, 1], [survival] * 2), ([2, 2, 2], one), ([0, 3, 1], one)))
            yield whole(rng, rule, random_survivals(rng, 3, unit), weights, BOARDED)._replace(boards=Boards(on, own))


def board_stretch_case(rng, n):
    """A stretch of a list behind boards; the board numbers outside are of no board, and must not be read."""
    # document 02, request 11: "rating calls: a rated fan's"
    case = stretch_case(rng, n, BOARDED)
    boards = random_boards(rng, n)
    on = [board if case.a <= fan <= case.b else rng.choice((0, 1, len(boards.survivals) + 1, 255)) for fan, board in enumerate(boards.of_fans, 1)]
    return case._replace(boards=Boards(on, boards.survivals))


def board_stretch_cases(rng):
    yield from (board_stretch_case(rng, rng.randint(1, 12)) for _ in range(50))
    for _ in range(12):
        n = rng.randint(2, 12)
        a, b = random_stretch(rng, n)
        rule = random_pairs(rng, b - a + 1, rng.randint(1, MOST_PAIRS))
        yield behind(rng, rule, random_survivals(rng, n, UNITS[BOARDED]), [])._replace(a=a, b=b)


def board_number_cases(rng):
    """A board number of g + 1, and of 255, by each fan of a list whose middle is rated; g itself is on a board."""
    # document 02, request 11: "21, a fan's board number above g (rating calls: a rated fan's)"
    for g in range(1, MOST_BOARDS + 1):
        for fan in range(4):
            for board in (g, g + 1, 255):
                on = [rng.randint(0, g) for _ in range(4)]
                on[fan] = board
                case = part(rng, Rule(rng.choice((1, 4, 5)), 1, 0), 2, 3, random_survivals(rng, 4, UNITS[BOARDED]), [], BOARDED)
                yield case._replace(boards=Boards(on, random_survivals(rng, g, UNITS[BOARDED])))


def board_length_cases(rng):
    """Board lists that are not n long, whole and of a stretch that they would cover, and numbers of boards outside 1 to 4."""
    # document 02, request 11: "20, g outside 1..4", "or a board list not n long"
    for n in (1, 2, 5):
        for count in (0, n - 1, n, n + 1, 2 * n, 64 if n < 5 else 256):
            case = part(rng, Rule(1, 1, 0), 1, rng.randint(1, n), random_survivals(rng, n, UNITS[BOARDED]), [], BOARDED)
            yield case._replace(boards=Boards([rng.randint(0, 1) for _ in range(count)], [rng.randrange(9)]))
        for g in (0, 1, 4, 5, 8, 255 + n % 2 if n > 1 else 9):
            case = whole(rng, Rule(1, 1, 0), random_survivals(rng, n, UNITS[BOARDED]), [], BOARDED)
            yield case._replace(boards=Boards([rng.choice((0, 1, 5)) for _ in range(n)], [7] * g))


def spoil_boards(rng, case, damage):
    """The case with no boards or too many (20), fans on none that there is or a list of the wrong length (21), or a board's number above the unit."""
    fans, own = case.boards
    if damage == 20:
        return case._replace(boards=Boards(fans, rng.choice(([], [1] * 5, [2 ** 32 - 1] * 9))))
    if damage == 21:
        above = [len(own) + 1 if rng.random() < 0.6 else board for board in fans]
        return case._replace(boards=Boards(rng.choice((above, above, [], fans[1:], fans + [0])), own))
    place = rng.randrange(len(own))
    return case._replace(boards=Boards(fans, [rng.choice(over(UNITS[BOARDED])) if at == place else number for at, number in enumerate(own)]))


def spoil_behind(rng, case, damage):
    """The case with one thing made wrong, of the boards too."""
    return spoil_boards(rng, case, damage) if damage in (20, 21) or damage == 4 and rng.random() < 0.5 else spoil(rng, case, damage)


BOARD_DAMAGES = (7, 6, 5, 4, 21, 20, 3, 2, 1)  # what is refused last is made wrong first


def refused_board_case(rng, count):
    """A stretch behind boards with so many things wrong at once."""
    n = rng.choice((1, 2, 3, 5, 7))
    a, b = random_stretch(rng, n)
    kind = rng.choice(KINDS)
    weights = weights_for(rng, kind, n)
    rule = rule_for(rng, kind, b - a + 1, weights[a - 1:b])
    case = behind(rng, rule, random_survivals(rng, n, UNITS[BOARDED]), weights)._replace(a=a, b=b)
    for damage in sorted(rng.sample(BOARD_DAMAGES, count), key=BOARD_DAMAGES.index):
        case = spoil_behind(rng, case, damage)
    return case


def refused_board_cases(rng):
    """Version 3: one, two or three things wrong at once; then 20, 21 and 4 beside each other number and each other."""
    # document 02, request 11: "in a rating call 20 and 21 come just before 4"
    yield from (refused_board_case(rng, rng.choice((1, 2, 2, 3))) for _ in range(110))
    for one in BOARD_DAMAGES:
        for other in (4, 20, 21):
            case = behind(rng, Rule(1, 1, 0), random_survivals(rng, 3, UNITS[BOARDED]), [])
            for damage in sorted({one, other}, key=BOARD_DAMAGES.index):
                case = spoil_behind(rng, case, damage)
            yield case


def unread_board_case(rng, kind, version):
    """Boards' lists with a version that has none, which are not read, with nothing wrong or one thing."""
    n = rng.randint(1, 7)
    weights = weights_for(rng, kind, n)
    case = whole(rng, rule_for(rng, kind, n, weights), random_survivals(rng, n, UNITS[version]), weights, version)
    case = case if rng.random() < 0.6 else spoil(rng, case, rng.randint(1, 7))
    return case._replace(boards=unread_boards(rng, n))


def unread_board_cases(rng):
    # document 02, request 11: "nothing of boards is read with them, and 20 and 21 don't arise"
    yield from (unread_board_case(rng, kind, version) for kind in KINDS for version in WITHOUT_BOARDS for _ in range(3))


def no_board_version_cases(rng):
    """Versions that would be 3 if they were cut to fewer bits, and those beside the ones that there are, with sound boards and with wrong ones."""
    for version in (0, 4, *(2 ** bits + 3 for bits in (8, 16, 32, 63))):
        for damages in ((), (20,), (21,)):
            case = behind(rng, Rule(1, 1, 0), random_survivals(rng, 2, UNITS[BOARDED]), [])
            for damage in damages:
                case = spoil_boards(rng, case, damage)
            yield case._replace(version=version)


def board_refit_cases(rng):
    """Lists before a refit and after it, with some fans and boards better."""
    unit = UNITS[BOARDED]
    for kind in (1, 2, 4, 5, 6, 7, PAIRS_KIND):
        weights = weights_for(rng, kind, 7)
        worn = behind(rng, rule_for(rng, kind, 7, weights), random_survivals(rng, 7, unit), weights)
        fans, own = ([rng.randint(p, unit) if rng.random() < 0.5 else p for p in numbers] for numbers in (worn.survivals, worn.boards.survivals))
        yield from (worn, worn._replace(survivals=fans, boards=Boards(worn.boards.of_fans, own)))


def make_cases():
    rng = random.Random(303)
    makers = (small_cases, alike_cases, every_length_cases, long_cases, sound_fan_cases, weight_cases,
              stretch_cases, rule_cases, room_cases, wrong_stretch_cases, survival_cases, length_cases,
              refused_cases, short_line_cases, single_pair_cases, many_pair_cases, pair_edge_cases, pair_stretch_cases, wrong_pair_cases,
              refused_pair_cases, unread_more_cases, refit_cases, decimal_small_cases, decimal_long_cases, decimal_stretch_cases, unit_cases,
              lone_number_cases, decimal_refused_cases, no_version_cases, same_chance_cases, board_small_cases, board_kind_cases, board_edge_cases,
              board_stretch_cases, board_number_cases, board_length_cases, refused_board_cases, unread_board_cases, no_board_version_cases,
              board_refit_cases)
    return [*published_cases(), *(case for maker in makers for case in maker(rng))]
