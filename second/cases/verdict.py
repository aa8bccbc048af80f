"""Cases for the verdict on one state: kind, first, second, n, state, W, the weights, M, the numbers of further pairs."""

import random
from typing import NamedTuple

from second.model.calls import verdict
from second.model.terms import MOST_PAIRS, NO_KIND, PAIRS_KIND, SEVEN_KINDS, WORKS, Fails, Refusal, Rule
from second.model.verdicts import fails
from second.samples import published
from second.samples.lists import (
    far_too_many_pairs, random_pairs, random_rule, random_weights, rules_in_range, short_lines, spoil_rule, two_windows, unread_more, unread_weights,
    weights_for, weights_of_total, wrong_further_pairs, wrong_numbers_of_pairs, wrong_rules,
)

ANSWERS_WANTED = {WORKS} | {f"fails {place}" for place in range(65)} | {f"refused {number}" for number in (1, 2, 5, 6, 9)}
LENGTHS = (1, 2, 3, 5, 8, 13, 21, 31, 32, 33, 48, 62, 63, 64)
SMALL_WEIGHTS = {
    1: ([1], [3]),
    2: ([2, 1], [0, 2]),
    3: ([2, 1, 1], [0, 1, 3]),
    4: ([2, 1, 0, 1], [1, 0, 3, 2]),
}


class Case(NamedTuple):
    rule: Rule
    n: int
    state: int
    weights: list

    def words(self):
        return [*self.rule.numbers, self.n, self.state, len(self.weights), *self.weights, len(self.rule.more), *self.rule.more]

    def line(self):
        answer = verdict(self.rule, self.n, self.state, self.weights)
        if isinstance(answer, Refusal):
            return f"refused {answer.number}"
        return f"fails {answer.place}" if isinstance(answer, Fails) else answer


def published_cases():
    return [Case(one.rule, one.n, one.state, one.weights) for one in published.VERDICTS]


def small_cases(rng):
    """Every word under every rule in range, and rules just out of it, for n up to 4."""
    for n, weight_lists in SMALL_WEIGHTS.items():
        for kind in SEVEN_KINDS:
            for weights in weight_lists if kind == 2 else ([],):
                for rule in rules_in_range(kind, n, sum(weights)):
                    yield from (Case(rule, n, state, weights) for state in range(2 ** n))
                for rule in wrong_rules(kind, n, sum(weights)):
                    yield Case(rule, n, rng.randrange(2 ** (n + 1)), weights)


def run_word(n, start, length):
    """Failed ones in a row from place start, past n to 1 where need be."""
    return sum(1 << place for place in {(start + step) % n for step in range(length)})


def edge_words(rng, rule, n):
    """Words that only just fail or only just work, wrapped past n as often as not."""
    start = rng.choice((0, n - 1, rng.randrange(n), rng.randrange(n)))
    if rule.kind in (4, 5):
        lengths = (rule.first - 1, rule.first)
        return [run_word(n, start, length) for length in lengths]
    if rule.kind in (6, 7):
        return [1 << start | 1 << (start + gap) % n for gap in (rule.second - 1, rule.second)]
    ends = (rule.first, rule.second) if rule.kind == 3 else (rule.first,)
    numbers = [end + step for end in ends for step in (-1, 0, 1) if 0 <= end + step <= n]
    return [sum(1 << place for place in rng.sample(range(n), number)) for number in numbers]


def sparse_word(rng, n):
    """A random word in which failed ones are rarer or commoner."""
    word = rng.getrandbits(n)
    for _ in range(rng.randrange(4)):
        word = word & rng.getrandbits(n) if rng.random() < 0.7 else word | rng.getrandbits(n)
    return word


def words_of_both_answers(rng, rule, n, weights):
    """A few words for the rule, both answers among them where both are found quickly."""
    found = {True: [], False: []}
    tries = edge_words(rng, rule, n) + [sparse_word(rng, n) for _ in range(8)]
    tries += [0, 2 ** n - 1, 1 << n - 1, 1 << rng.randrange(n)]
    for word in tries:
        found[fails(rule, n, word, weights)].append(word)
    return found[True][:2] + found[False][:2]


def long_cases(rng):
    """Rules of every kind on lists of every length, at the ends of the range and inside it."""
    for n in LENGTHS:
        for kind in SEVEN_KINDS:
            for _ in range(6):
                weights = random_weights(rng, n) if kind == 2 else unread_weights(rng)
                rule = random_rule(rng, kind, n, sum(weights))
                if rule is not None:
                    states = words_of_both_answers(rng, rule, n, weights)
                    yield from (Case(rule, n, state, weights) for state in states)


def full_window_cases():
    """n = 64 with windows of 64, and k = 1, where one bit decides."""
    full = 2 ** 64 - 1
    for bit in (0, 1, 31, 32, 62, 63):
        for kind in (1, 4, 5):
            yield Case(Rule(kind, 64, 0), 64, full - (1 << bit), [])
            yield Case(Rule(kind, 1, 0), 64, 1 << bit, [])
        for kind in (6, 7):
            yield Case(Rule(kind, 2, 64), 64, 1 << bit, [])
            yield Case(Rule(kind, 2, 64), 64, 1 << bit | 1 << (bit + 40) % 64, [])
        yield Case(Rule(2, 1, 0), 64, 1 << bit, [int(place == bit) for place in range(64)])
        yield Case(Rule(2, 1, 0), 64, full - (1 << bit), [int(place == bit) for place in range(64)])
    for kind in SEVEN_KINDS:
        for rule in (Rule(kind, 64, 0), Rule(kind, 1, 0), Rule(kind, 2, 64), Rule(kind, 0, 64)):
            yield from (Case(rule, 64, state, [1] * 64) for state in (0, full))


def stray_bit_cases(rng):
    """Ones above bit n - 1, beside words that end exactly there."""
    # document 01, 'Refusal numbers', row 9
    for n in (1, 2, 7, 31, 32, 33, 62, 63):
        for kind in SEVEN_KINDS:
            weights = weights_of_total(rng, n, 2 * n if n < 60 else 120) if kind == 2 else []
            rule = random_rule(rng, kind, n, sum(weights))
            if rule is not None:
                low = rng.getrandbits(n)
                for extra in (1 << n - 1, 1 << n, 1 << 63, 1 << rng.randrange(n, 64)):
                    yield Case(rule, n, low | extra, weights)


def weight_cases(rng):
    """Totals of 120 and 121, single weights too heavy, lists of the wrong length."""
    # document 01, 'Refusal numbers', row 5
    for n in (1, 2, 5, 64):
        for total in (119, 120, 121, 122):
            weights = weights_of_total(rng, n, total)
            for first in (1, 60, 120, 121):
                yield Case(Rule(2, first, 0), n, rng.getrandbits(n), weights)
        for length in (0, n - 1, n + 1, n + 6):
            yield Case(Rule(2, 1, 0), n, rng.getrandbits(n), [1] * length)
        yield Case(Rule(2, 1, 0), n, 1, [65535] * n)
        yield Case(Rule(2, 1, 0), n, 1, [0] * n)
        yield Case(Rule(2, 0, 0), n, 1 << n - 1, [0] * n)


def spoil(rng, case, damage):
    """The case with one thing made wrong."""
    if damage == 9:
        return case._replace(state=case.state | 1 << min(case.n, 63) | 1 << 63)
    return spoil_rule(rng, case, damage, (0, 65, 66, 128))


def refused_cases(rng):
    """One, two or three things wrong at once, so that the lowest number must win."""
    for _ in range(420):
        n = rng.choice((1, 2, 3, 5, 7, 20))
        kind = rng.choice(SEVEN_KINDS)
        weights = random_weights(rng, n) if kind == 2 else unread_weights(rng)
        rule = random_rule(rng, kind, n, sum(weights)) or Rule(1, 1, 0)
        case = Case(rule, n, rng.getrandbits(n), weights)
        for damage in sorted(rng.sample((1, 2, 5, 6, 9), rng.choice((1, 1, 2, 3))), reverse=True):
            case = spoil(rng, case, damage)
        yield case


def short_line_cases(rng):
    """Lines no longer than the window: no failed one, one, two at either end and next to each other, all."""
    for n, rule in short_lines():
        for state in sorted({0, 1, 1 << n - 1, 1 | 1 << n - 1, 3 if n > 1 else 1, 2 ** n - 1, rng.getrandbits(n)}):
            yield Case(rule, n, state, unread_weights(rng))


def place_cases(rng):
    """Failing windows at every start, by themselves and below another: the lowest is named, on rings also where it runs past n."""
    for n, k in ((5, 2), (8, 3), (64, 3)):
        for start in range(n):
            beside = run_word(n, rng.randrange(n), k)
            for kind in (4, 5):
                yield from (Case(Rule(kind, k, 0), n, run_word(n, start, k) | more, []) for more in (0, beside))
            for kind in (6, 7):
                two = 1 << start | 1 << (start + k - 1) % n
                yield from (Case(Rule(kind, 2, k), n, two | more, []) for more in (0, beside))


def pair_words(rng, rule, n, start=None):
    """For each pair a window with just as many working ones as it asks for, and one with one fewer, at a start or at any."""
    for k, r in rule.pairs:
        at = rng.choice((0, n - r, rng.randint(0, n - r))) if start is None else start
        yield from (sum(1 << at + step for step in rng.sample(range(r), failed)) for failed in (r - k, r - k + 1))


def single_pair_cases(rng):
    """Every word under every single pair for n up to 5, and words at the edge for n up to 11."""
    for n in range(1, 12):
        for rule in rules_in_range(PAIRS_KIND, n, 0):
            states = range(2 ** n) if n <= 5 else pair_words(rng, rule, n)
            yield from (Case(rule, n, state, unread_weights(rng) if n > 5 else []) for state in states)


def many_pair_cases(rng):
    """Two to four pairs, some given twice: every word for n up to 5, and words at the edge of each pair for larger n."""
    for n in (*range(1, 6), *LENGTHS):
        for count in range(2, MOST_PAIRS + 1):
            for _ in range(3):
                rule = random_pairs(rng, n, count)
                states = range(2 ** n) if n <= 5 else [*pair_words(rng, rule, n), sparse_word(rng, n)]
                yield from (Case(rule, n, state, []) for state in states)


def pair_place_cases(rng):
    """Failing windows at every start, by themselves and beside another: the lowest start of any pair's is named."""
    rules = Rule(PAIRS_KIND, 1, 1), Rule(PAIRS_KIND, 1, 10), two_windows(), two_windows()._replace(first=4, second=8, more=(2, 5))
    for n, rule in ((n, rule) for n in (10, 64) for rule in rules):
        for start in range(n - max(r for _, r in rule.pairs) + 1):
            beside = rng.choice((0, *pair_words(rng, rule, n)))
            yield from (Case(rule, n, state | beside, []) for state in pair_words(rng, rule, n, start))


def wrong_pair_cases(rng):
    """Pairs out of range, first or further; too many pairs, and half a pair; each also where 9 would come next."""
    for n in (1, 2, 3, 5, 9, 10, 11, 64):
        rules = [*wrong_rules(PAIRS_KIND, n, 0), *wrong_further_pairs(rng, n), *wrong_numbers_of_pairs(rng, n), far_too_many_pairs()]
        yield from (Case(rule, n, rng.getrandbits(min(n + 1, 64)), unread_weights(rng)) for rule in rules)


def refused_pair_cases(rng):
    """One, two or three things wrong at once, under pairs."""
    for _ in range(120):
        n = rng.choice((1, 2, 3, 5, 7, 20))
        case = Case(random_pairs(rng, n, rng.randint(1, MOST_PAIRS)), n, rng.getrandbits(n), unread_weights(rng))
        for damage in sorted(rng.sample((1, 2, 6, 9), rng.choice((1, 1, 2, 3))), reverse=True):
            case = spoil(rng, case, damage)
        yield case


def unread_more_cases(rng):
    """Numbers beside a rule of another kind, which are not read; the kind above them is none, whatever stands beside it."""
    for kind in SEVEN_KINDS:
        for n in (2, 3, 8, 64):
            weights = weights_for(rng, kind, n)
            rule = (random_rule(rng, kind, n, sum(weights)) or Rule(1, 1, 0))._replace(more=unread_more(rng))
            yield from (Case(rule, n, state, weights) for state in words_of_both_answers(rng, rule, n, weights))
    for n in (0, 1, 3, 64, 65):
        yield Case(Rule(NO_KIND, 1, 1, unread_more(rng)), n, 0, [])
        yield Case(Rule(NO_KIND, 1, 1), n, 0, [])


def make_cases():
    rng = random.Random(101)
    return [*published_cases(), *small_cases(rng), *long_cases(rng), *full_window_cases(), *stray_bit_cases(rng),
            *weight_cases(rng), *refused_cases(rng), *short_line_cases(rng), *place_cases(rng), *single_pair_cases(rng),
            *many_pair_cases(rng), *pair_place_cases(rng), *wrong_pair_cases(rng), *refused_pair_cases(rng), *unread_more_cases(rng)]
