"""Rules, survival numbers and weights to draw from, shared by the checks and the case files."""

import random
from collections.abc import Sequence

from second.model.terms import KINDS, LONGEST_WINDOW, MOST_BOARDS, MOST_FANS, MOST_PAIRS, MOST_WEIGHT, NO_KIND, PAIRS_KIND, UNIT, UNITS, Boards, Rule

HUGE = (2 ** 16, 2 ** 32, 2 ** 63, 2 ** 64 - 1)
BINARY, DECIMAL, BOARDED = UNITS  # the versions
WITHOUT_BOARDS = BINARY, DECIMAL
NO_VERSIONS = (0, 4, 2 ** 16 + 1, 2 ** 32 + 2, 2 ** 63 + 1, 2 ** 64 - 1)


def over(unit):
    """Survival numbers above the unit; above the smaller one the larger too."""
    return unit + 1, *(number for number in (UNIT, 2 ** 31, 2 ** 32 - 1) if number > unit)


def edges(unit):
    return 0, 1, unit // 2, unit - 1, unit


OVER_UNIT = over(UNIT)
EDGE_SURVIVALS = edges(UNIT)


class Rules(Sequence):
    """Rules over a range of numbers, each made when it is asked for: a heavy deck has tens of thousands."""

    def __init__(self, rule, number, numbers):
        self.rule, self.number, self.numbers = rule, number, numbers

    def __len__(self):
        return len(self.numbers)

    def __getitem__(self, place):
        return self.rule(self.numbers[place])

    def __contains__(self, rule):
        number = self.number(rule)
        return number in self.numbers and rule == self.rule(number)


def rules_in_range(kind, n, total):
    """Every rule of the kind that n components of this total weight accept, of kind 6 with a window no longer than the line, of kind 8 with one
    pair."""
    # document 01, 'The seven verdicts', column "range"
    if kind == PAIRS_KIND:
        return [Rule(kind, k, r) for r in range(1, min(n, LONGEST_WINDOW) + 1) for k in range(1, r + 1)]
    if kind == 3:
        return [Rule(3, low, high) for high in range(n + 1) for low in range(high + 1)]
    if kind in (6, 7):
        return Rules(lambda r: Rule(kind, 2, r), lambda rule: rule.second, range(2, n + 1))
    most = total if kind == 2 else n
    return Rules(lambda k: Rule(kind, k, 0), lambda rule: rule.first, range(1, most + 1))


def longer_windows(n):
    """Kind 6 with windows longer than the line."""
    # document 02, request 03: "for r from 2 to 64 and n from 1"
    return [Rule(6, 2, r) for r in range(max(n + 1, 2), MOST_FANS + 1)]


def all_rules(n, total, kinds=KINDS):
    return [rule for kind in kinds for rule in rules_in_range(kind, n, total)]


def edge_rules(kind, n, total):
    """Rules at the ends of the range, and where a ring's windows begin to overlap."""
    if kind == PAIRS_KIND:
        longest = min(n, LONGEST_WINDOW)
        pairs = ((1, 1), (1, 2), (2, 2), (1, longest), (longest // 2, longest), (longest - 1, longest), (longest, longest))
    elif kind == 3:
        pairs = ((0, n), (0, 0), (n, n), (1, n), (0, n - 1), (n // 2, n // 2))
    elif kind in (6, 7):
        pairs = ((2, 2), (2, 3), (2, n // 2), (2, n // 2 + 1), (2, n - 1), (2, n))
    else:
        most = total if kind == 2 else n
        pairs = ((1, 0), (2, 0), (most // 2, 0), (most - 1, 0), (most, 0))
    accepted = rules_in_range(kind, n, total)
    return [rule for rule in (Rule(kind, *pair) for pair in pairs) if rule in accepted]


def wrong_rules(kind, n, total):
    """Rules just out of range for the kind, n and total weight; of kind 6 one that request 03 let in."""
    # document 01, 'Refusal numbers', row 6
    if kind == PAIRS_KIND:
        pairs = wrong_pairs(n)
    elif kind == 3:
        pairs = ((0, n + 1), (n + 1, n + 1), (n, n - 1), (1, 0), (n + 1, 0))
    elif kind in (6, 7):
        pairs = ((2, n + 1), (2, 1), (2, 0), (1, n), (3, n), (0, 2))
    else:
        most = total if kind == 2 else n
        pairs = ((0, 0), (most + 1, 0), (1, 1), (most, 2 ** 32), (0, 1))
    return [Rule(kind, *pair) for pair in pairs]


def wrong_pairs(n):
    """Pairs just out of range, and far out of it."""
    # document 02, request 05: "1 <= k <= r <= 10 and r at most n"
    longest = min(n, LONGEST_WINDOW)
    return ((0, 0), (0, 1), (0, longest), (2, 1), (longest + 1, longest), (1, n + 1), (n + 1, n + 1), (1, LONGEST_WINDOW + 1),
            (LONGEST_WINDOW + 1, LONGEST_WINDOW + 1), (1, 2 ** 64 - 1), (2 ** 64 - 1, 1), (2 ** 32 + 1, 2 ** 32 + 1), (1, 2 ** 63))


def short_lines():
    """Kind 6 over lines about as long as the window and shorter, and windows of 64 and 65: n and the rule."""
    # document 02, request 03
    for rule in longer_windows(1):
        yield 1, rule
    for n in range(2, 11):
        for r in (n - 1, n, n + 1, MOST_FANS, MOST_FANS + 1):
            yield n, Rule(6, 2, r)
        yield n, Rule(7, 2, n + 1)


def random_rule(rng, kind, n, total):
    """A rule in range, at an end of it one time in three; None where the range is empty."""
    rules = edge_rules(kind, n, total) if rng.random() < 0.34 else rules_in_range(kind, n, total)
    return rng.choice(rules) if rules else None


def random_pairs(rng, n, count):
    """Kind 8 with so many pairs in range; now and then one of them is given twice."""
    rules = [random_rule(rng, PAIRS_KIND, n, 0) for _ in range(count)]
    if count > 1 and rng.random() < 0.2:
        rules[-1] = rng.choice(rules[:-1])
    more = tuple(number for rule in rules[1:] for number in (rule.first, rule.second))
    return rules[0]._replace(more=more)


def two_windows():
    """The decks' own rule."""
    # document 02, request 05: "any 5 fans, at least 2 running, and any 8, at least 4 running"
    return Rule(PAIRS_KIND, 2, 5, (4, 8))


def wrong_numbers_of_pairs(rng, n):
    """Pairs in range, and too many of them or a number left over."""
    # document 02, request 05: "6 for a bad pair or number of pairs"
    for count in range(1, MOST_PAIRS + 3):
        rule = random_pairs(rng, n, count)
        if count > MOST_PAIRS:
            yield rule
        yield rule._replace(more=(*rule.more, rng.choice((0, 1))))


def far_too_many_pairs():
    """As many further numbers as a case can have, which would be none if their number were cut to 8 bits."""
    return Rule(PAIRS_KIND, 1, 1, (1, 1) * 128)


def wrong_further_pairs(rng, n):
    """Pairs in range but for one further pair, in each of its places."""
    for pair in wrong_pairs(n):
        count = rng.randint(2, MOST_PAIRS)
        more = list(random_pairs(rng, n, count).more)
        at = 2 * rng.randrange(count - 1)
        more[at:at + 2] = pair
        yield random_rule(rng, PAIRS_KIND, n, 0)._replace(more=tuple(more))


def unread_more(rng):
    """What the kinds that have no pairs are given beside the rule: any length, any size."""
    return tuple(rng.choice((0, 1, 2, 11, *HUGE)) for _ in range(rng.choice((1, 2, 3, 6, 7, 8, 9))))


def random_stretch(rng, n):
    """A stretch inside the list: the whole, a single fan, or any other."""
    manner = rng.randrange(4)
    if manner == 0:
        return 1, n
    a = rng.randint(1, n)
    return (a, a) if manner == 1 else (a, rng.randint(a, n))


def random_survivals(rng, n, unit=UNIT):
    """n survival numbers: sound fans, poor fans, edges of the range, or all alike."""
    manner = rng.choice(("any", "any", "sound", "poor", "edge", "mixed", "alike"))
    if manner == "alike":
        return [rng.choice((unit // 2, 1, unit - 1, rng.randrange(unit + 1)))] * n
    draw = {
        "any": lambda: rng.randrange(unit + 1),
        "sound": lambda: unit - rng.randrange(unit // 8),
        "poor": lambda: rng.randrange(20),
        "edge": lambda: rng.choice(edges(unit)),
        "mixed": lambda: rng.choice(edges(unit) + (rng.randrange(unit + 1),) * 5),
    }[manner]
    return [draw() for _ in range(n)]


def same_chances(rng, n):
    """n chances as survival numbers of either version without boards: parts of 2^9, which are whole in both units, as 10^9 is 2^9 times 5^9."""
    parts = [rng.choice((0, 1, 2 ** 9 - 1, 2 ** 9, *(rng.randint(1, 2 ** 9) for _ in range(12)))) for _ in range(n)]
    return {version: [part * UNITS[version] // 2 ** 9 for part in parts] for version in WITHOUT_BOARDS}


def weights_of_total(rng, n, total):
    """n weights adding up to the total, about a quarter of them 0 where n allows."""
    bearers = rng.sample(range(n), max(1, n - n // 4))
    weights = [0] * n
    for _ in range(total):
        weights[rng.choice(bearers)] += 1
    return weights


def random_weights(rng, n):
    """n weights that a kind 2 rule accepts, heavy about as often as light."""
    return weights_of_total(rng, n, rng.choice((1, n, rng.randint(1, MOST_WEIGHT), MOST_WEIGHT)))


def unread_weights(rng):
    """Weights for the kinds that don't read them: any length, any size."""
    # document 01, 'The seven verdicts': "For other kinds weights aren't read and may have any length"
    return [rng.choice((0, 1, 121, 65535)) for _ in range(rng.choice((0, 0, 0, 1, 2, 5)))]


def weights_for(rng, kind, n):
    return random_weights(rng, n) if kind == 2 else unread_weights(rng)


def rule_for(rng, kind, n, weights):
    """A rule of any kind, kind 8 with one to four pairs; kind 1's where these components leave the kind no rule at all."""
    if kind == PAIRS_KIND:
        return random_pairs(rng, n, rng.randint(1, MOST_PAIRS))
    return random_rule(rng, kind, n, sum(weights)) or Rule(1, 1, 0)


def random_systems(seed, count, most, unit=UNIT):
    """Systems of every kind by turns, kind 8 with one to four pairs: rule, survival numbers, weights."""
    rng = random.Random(seed)
    for place in range(count):
        kind = KINDS[place % len(KINDS)]
        n = rng.randint(2, most)
        weights = random_weights(rng, n)
        yield rule_for(rng, kind, n, weights), random_survivals(rng, n, unit), weights


def board_numbers(rng, n, g):
    """The board numbers of n fans: none at all, one for all, in turn, in rows, any, or not on every board."""
    manner = rng.choice(("none", "one", "turns", "rows", "any", "any", "any", "few"))
    if manner in ("none", "one"):
        return [0 if manner == "none" else rng.randint(1, g)] * n
    if manner == "turns":
        return [fan % (g + 1) for fan in range(n)]
    if manner == "rows":
        return [1 + fan * g // n for fan in range(n)]
    some = range(g + 1) if manner == "any" else rng.sample(range(g + 1), rng.randint(1, g))
    return [rng.choice(some) for _ in range(n)]


def random_boards(rng, n, g=None, unit=UNITS[BOARDED]):
    """One to four boards, or so many, and the fans on them."""
    # document 02, request 11: "a deck has g boards, 1 to 4"
    g = g or rng.randint(1, MOST_BOARDS)
    return Boards(board_numbers(rng, n, g), random_survivals(rng, g, unit))


def unread_boards(rng, n):
    """Boards' lists for the versions that don't read them: any length, any size."""
    # document 02, request 11: "nothing of boards is read with them"
    fans = [rng.choice((0, 1, 4, 5, 255)) for _ in range(rng.choice((0, 1, n, n, n + 1, 64, 65)))]
    return Boards(fans, [rng.choice((0, 1, *over(UNITS[BOARDED]))) for _ in range(rng.choice((0, 1, 4, 5, 9)))])


def spoil_rule(rng, case, damage, sizes):
    """The case with its kind (1), its n (2), its weights (5) or a number of its rule (6) made wrong; as kind 8 it has a rule of another kind."""
    rule, n = case.rule, case.n
    if damage == 1:
        return case._replace(rule=rule._replace(kind=rng.choice((0, PAIRS_KIND, NO_KIND, 255) + HUGE)))
    if damage == 2:
        return case._replace(n=rng.choice(sizes + HUGE))
    if damage == 5:
        wrong = rng.choice(([], [121], case.weights + [1, 1], [61] * n))
        return case._replace(rule=Rule(2, 1, 0), weights=wrong)
    field, number = rng.choice(("first", "second")), rng.choice((0, n + 1, 65, 121) + HUGE)
    return case._replace(rule=rule._replace(**{field: number}))
