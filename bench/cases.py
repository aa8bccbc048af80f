"""The cases that are rated: the worst rule of each kind and size, kind 8's longest windows, and every rule of small sizes for the peers to agree on."""

import random
from typing import NamedTuple

from second.model.calls import figures
from second.model.memory import row_of
from second.model.terms import BOARDS_VERSION, DEAD, LONGEST_WINDOW, MOST_PAIRS, PAIRS_KIND, SEVEN_KINDS, UNIT, Boards, Rule
from second.samples.lists import random_pairs, rules_in_range, two_windows

SIZES = (8, 16, 32, 64)
KINDS = SEVEN_KINDS  # kind 8 has peers of its own
# Read from the last component on, these give as many memories as a total of 120 can: 1, 2, 4, .. 64, then 120.
WEIGHTS = (1, 2, 4, 8, 16, 32, 57)
HEAVIEST = 120
DECIMAL = 10 ** 9
# As bench/peers/boards.h has them.
BOARDS = Boards([1, 2, 3, 4] * 16, [999999999, 999500000, 990000001, 900000000])


class Case(NamedTuple):
    rule: Rule
    survivals: tuple
    weights: tuple

    def line(self):
        more = self.rule.more
        return " ".join(map(str, (*self.rule.numbers, len(self.survivals), *self.survivals, *self.weights, len(more), *more)))

    def in_decimal(self):
        """The same chances in version 2's unit, as near as it comes."""
        return self._replace(survivals=tuple(p * DECIMAL // UNIT for p in self.survivals))

    def behind_boards(self):
        """What the second program answers of a list in version 2's unit behind the boards."""
        return figures(self.rule, 1, len(self.survivals), self.survivals, self.weights, version=BOARDS_VERSION, boards=BOARDS)

    def with_middle(self, survival):
        """The same with another survival number of the middle fan, whose worth is asked for (bench/peers/worth.c)."""
        middle = len(self.survivals) // 2
        return self._replace(survivals=(*self.survivals[:middle - 1], survival, *self.survivals[middle:]))


def drawn(n):
    """Survival numbers from a twentieth of the unit up, odd, so that no fraction is shortened."""
    numbers, x = [], 1
    for _ in range(n):
        x = (x * 1103515245 + 12345) % 2**31
        numbers.append(UNIT // 20 + x % (UNIT // 20 * 19) | 1)
    return tuple(numbers)


def edges(n):
    """The same with every third one 0 or the whole unit."""
    return tuple(p if i % 3 else UNIT * (i % 2) for i, p in enumerate(drawn(n)))


def weights(n):
    return tuple(reversed((WEIGHTS + (0,) * n)[:n]))


def laden(n):
    """No component weighs nothing, and the one read first is the heaviest: no other weights have the library work more memories."""
    return (1,) * (n - 1) + (HEAVIEST - n + 1,)


def even(n):
    """As even as may be."""
    return tuple(HEAVIEST // n + (i < HEAVIEST % n) for i in range(n))


def rules(kind, n):
    """Every rule of a kind; a few of kind 2."""
    if kind == 2:
        return [Rule(2, k, 0) for k in (1, 2, 30, HEAVIEST - 1, HEAVIEST)]
    if kind == 3:
        return [Rule(3, low, high) for high in range(n + 1) for low in range(high + 1)]
    if kind in (6, 7):
        return [Rule(kind, 2, r) for r in range(2, n + 1)]
    return [Rule(kind, k, 0) for k in range(1, n + 1)]


def reached(rule, heavy):
    """How many living memories a reading can come to, before each component."""
    row = row_of(rule)
    here = {row.start}
    for weight in reversed(heavy):
        yield len(here)
        after = {row.working(rule, m) for m in here} | {row.failed(rule, m, weight) for m in here}
        here = after - {DEAD}


def steps(rule, heavy):
    """How many pairs of a component and a living memory a reading can come to."""
    return sum(reached(rule, heavy))


def living(rule, n):
    """How many memories of kind 8 live."""
    return max(reached(rule, (0,) * n))


def worst(kind, n):
    """The rule with the most steps: of kind 3, where all rules have as many, the one that the papers' recurrence works longest at."""
    if kind == 3:
        return Rule(3, n // 2, n)
    return max(rules(kind, n), key=lambda rule: steps(rule, weights(n)))


def case(rule, n, list_of=drawn, weights_of=weights):
    return Case(rule, list_of(n), weights_of(n))


def worst_cases():
    return [case(worst(kind, n), n) for kind in KINDS for n in SIZES]


def agreed_cases():
    """Small lists under every rule, short rings and survival numbers 0 among them; longer ones under a short and a middling rule."""
    small = [case(rule, n, list_of) for n in (8, 16) for kind in KINDS for rule in rules(kind, n) for list_of in (drawn, edges)]
    heavy = [case(rule, n, drawn, weights_of) for n in (8, 16, 64) for rule in rules(2, n) for weights_of in (laden, even)]
    return small + heavy + [case(rule, n) for n in (32, 64) for rule in middling(n)]


def middling(n):
    return [Rule(1, n // 2, 0), Rule(2, 30, 0), Rule(3, 3, n // 2), Rule(4, 3, 0), Rule(5, 3, 0), Rule(6, 2, 3), Rule(7, 2, 3)]


def longest_cases():
    """Every rule over the longest list, to find what costs the library most; of kind 3, whose rules all cost it the same, two; of kind 2 a few,
    with other weights too."""
    most = SIZES[-1]
    heavy = [case(rule, most, drawn, weights_of) for rule in rules(2, most) for weights_of in (laden, even)]
    return [case(rule, most) for kind in KINDS for rule in (rules(kind, most) if kind != 3 else (Rule(3, 0, 0), worst(3, most)))] + heavy


def count_cases(n):
    """Every rule over n components; of kind 3, whose rules look as much up, three; of kind 2 a few, with weights of three sorts. No survival number is read."""
    heavy = [case(rule, n, drawn, weights_of) for rule in rules(2, n) for weights_of in (weights, laden, even) if rule.first <= sum(weights_of(n))]
    others = [case(rule, n) for kind in KINDS if kind not in (2, 3) for rule in rules(kind, n)]
    return heavy + others + [case(rule, n) for rule in (Rule(3, 0, 0), Rule(3, n, n), worst(3, n))]


def window_cases():
    """Kind 8 over the longest list: every k of the longest window, and the decks' own rule."""
    rules_asked = [Rule(PAIRS_KIND, k, LONGEST_WINDOW) for k in range(1, LONGEST_WINDOW + 1)] + [two_windows()]
    return [case(rule, SIZES[-1]) for rule in rules_asked]


def agreed_windows():
    """Every single pair over small lists, survival numbers 0 among them; two to four pairs."""
    rng = random.Random(8)
    single = [case(rule, n, list_of) for n in (1, 2, 10, 16) for rule in rules_in_range(PAIRS_KIND, n, 0) for list_of in (drawn, edges)]
    return single + [case(random_pairs(rng, n, count), n) for n in (1, 9, 16, 32) for count in range(2, MOST_PAIRS + 1) for _ in range(4)]
