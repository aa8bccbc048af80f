"""Cases for the count table: kind, first, second, n, room, slots, seed, W, then the weights; kind 8 has none, and its further pairs no place here."""

import random
from typing import NamedTuple

from second.cases.words import checksum, checksum_after, rubbish
from second.model.calls import count_slots_after, count_table
from second.model.terms import MOST_WEIGHT, NO_KIND, PAIRS_KIND, SEVEN_KINDS, TABLE_CELLS, Refusal, Rule
from second.samples import published
from second.samples.lists import (
    all_rules, edge_rules, random_rule, random_weights, short_lines, spoil_rule, unread_weights, weights_for, weights_of_total, wrong_rules,
)

ANSWERS_WANTED = {"counts"} | {f"refused {number}" for number in (1, 2, 5, 6, 7, 8, 15)}
SEEDS = (0, 1, 2, 2 ** 32, 2 ** 63, 2 ** 64 - 1, 88172645463325252)
MOST_SLOTS = 80


class Case(NamedTuple):
    rule: Rule
    n: int
    room: int
    slots: int
    seed: int
    weights: list

    def words(self):
        return [*self.rule.numbers, self.n, self.room, self.slots, self.seed, len(self.weights), *self.weights]

    def line(self):
        answer = count_table(self.rule, self.n, self.weights, self.room, self.slots)
        refused = isinstance(answer, Refusal)
        _, slots = rubbish(self.seed, self.room, self.slots)
        sums = f"cells {checksum_after(self.seed, self.room, not refused)} {checksum(count_slots_after(slots, answer))}"
        return f"refused {answer.number} {sums}" if refused else f"counts {' '.join(map(str, answer))} {sums}"


def published_cases():
    """What the documents print, each on a table full of rubbish."""
    return [Case(one.rule, one.n, TABLE_CELLS, one.n + 1, SEEDS[1], one.weights) for one in published.COUNTS]


def lent(rng, n):
    """Working table and room for the counts that are long enough, and a seed."""
    slots = rng.choice((n + 1, n + 1, n + 2, min(n + 9, MOST_SLOTS), MOST_SLOTS))
    return rng.choice((TABLE_CELLS, TABLE_CELLS, 8000)), slots, rng.choice(SEEDS)


def run_only_cases(rng):
    # document 01, 'Proved examples': "Run only"
    yield Case(Rule(1, 64, 0), 64, 7800, 65, 1, [])
    yield Case(Rule(1, 64, 0), 65, 7800, 66, 1, [])
    for kind in (6, 7):
        for n in (1, 2, 3, 8, 63, 64):
            yield Case(Rule(kind, 2, n), n, 7800, n + 1, 2, [])
            yield Case(Rule(kind, 2, n + 1), n, 7800, n + 1, 2, [])
    for n in (1, 2, 20, 64):
        for total in (119, MOST_WEIGHT, MOST_WEIGHT + 1):
            for first in (1, 60, 120):
                yield Case(Rule(2, first, 0), n, 7800, n + 1, 3, weights_of_total(rng, n, total))


def small_cases(rng):
    """Every rule in range for n up to 5, under two lists of weights."""
    for n in range(1, 6):
        for _ in range(2):
            weights = weights_of_total(rng, n, n + 2)
            for rule in all_rules(n, sum(weights), SEVEN_KINDS):
                read = weights if rule.kind == 2 else unread_weights(rng)
                yield Case(rule, n, *lent(rng, n), read)


def long_cases(rng):
    """Rules of every kind for larger n, the ends of the range at n = 64 among them."""
    for kind in SEVEN_KINDS:
        weights = weights_of_total(rng, 64, MOST_WEIGHT) if kind == 2 else []
        for rule in edge_rules(kind, 64, MOST_WEIGHT):
            yield Case(rule, 64, *lent(rng, 64), weights)
        for place in range(40):
            n = rng.randint(6, 64) if place % 3 == 0 else rng.randint(6, 20)
            weights = weights_for(rng, kind, n)
            yield Case(random_rule(rng, kind, n, sum(weights)), n, *lent(rng, n), weights)


def rule_cases(rng):
    """Rules just out of range."""
    # document 01, 'Refusal numbers', row 6
    for n in (1, 2, 3, 5, 64):
        for kind in SEVEN_KINDS:
            for rule in wrong_rules(kind, n, n + 1):
                weights = weights_of_total(rng, n, n + 1) if kind == 2 else []
                yield Case(rule, n, *lent(rng, n), weights)


def slot_cases(rng):
    """Room of n, n + 1 and more cells for the counts, and working tables around 7,800."""
    # document 01, 'Refusal numbers', rows 7 and 8
    for n in (1, 2, 3, 7, 31, 64):
        for slots in (0, 1, n - 1, n, n + 1, n + 2, MOST_SLOTS):
            for room in (0, TABLE_CELLS - 1, TABLE_CELLS, 8000):
                yield Case(Rule(rng.choice((1, 4, 5)), 1, 0), n, room, slots, rng.choice(SEEDS), [])


def spoil(rng, case, damage):
    """The case with one thing made wrong."""
    if damage == 7:
        return case._replace(room=rng.choice((0, 1, TABLE_CELLS - 1)))
    if damage == 8:
        return case._replace(slots=rng.randrange(min(case.n, MOST_SLOTS) + 1))
    return spoil_rule(rng, case, damage, (0, 65, 79, 128))


def refused_cases(rng):
    """One, two or three things wrong at once, so that the lowest number must win."""
    for _ in range(360):
        n = rng.choice((1, 2, 3, 5, 7, 12))
        kind = rng.choice(SEVEN_KINDS)
        weights = random_weights(rng, n) if kind == 2 else unread_weights(rng)
        rule = random_rule(rng, kind, n, sum(weights)) or Rule(1, 1, 0)
        case = Case(rule, n, *lent(rng, n), weights)
        for damage in sorted(rng.sample((1, 2, 5, 6, 7, 8), rng.choice((1, 1, 2, 3))), reverse=True):
            case = spoil(rng, case, damage)
        yield case


def short_line_cases(rng):
    """Lines no longer than the window."""
    for n, rule in short_lines():
        yield Case(rule, n, *lent(rng, n), unread_weights(rng))


def pair_cases(rng):
    """Kind 8, which has no count table: whatever its pair and n, and before any other refusal but 1; the kind above it is none."""
    # document 02, request 05: "15 for a kind 8 count table, right after 1"
    for kind in (PAIRS_KIND, NO_KIND):
        for n in (0, 1, 2, 10, 11, 64, 65, 2 ** 64 - 1):
            for first, second in ((1, 1), (2, 5), (1, 11), (0, 0), (2 ** 64 - 1, 1)):
                yield Case(Rule(kind, first, second), n, *lent(rng, min(n, 64)), unread_weights(rng))
        yield from (Case(Rule(kind, 1, 1), 3, room, slots, rng.choice(SEEDS), []) for room in (0, TABLE_CELLS - 1, TABLE_CELLS) for slots in (0, 3, 4))


def make_cases():
    rng = random.Random(202)
    return [*published_cases(), *run_only_cases(rng), *small_cases(rng), *long_cases(rng),
            *rule_cases(rng), *slot_cases(rng), *refused_cases(rng), *short_line_cases(rng), *pair_cases(rng)]
