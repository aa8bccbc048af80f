"""The count table: working states by the number failed, three ways."""

from collections import Counter
from functools import lru_cache

from second.model.memory import read
from second.model.verdicts import fails


@lru_cache(maxsize=None)
def pascal_row(n):
    # document 01, 'The seven verdicts': "ends are 1, each other entry is the sum of the two above"
    if n == 0:
        return [1]
    above = pascal_row(n - 1)
    return [1] + [left + right for left, right in zip(above, above[1:])] + [1]


def states_with(n, failed):
    # document 01, 'The seven verdicts': "How many states have j failed at all"
    return pascal_row(n)[failed] if 0 <= failed <= n else 0


def counts_by_words(rule, n, weights):
    # document 01, 'The seven verdicts': "the number of working states with exactly j failed"
    counts = [0] * (n + 1)
    for state in range(2 ** n):
        if not fails(rule, n, state, weights):
            counts[state.bit_count()] += 1
    return counts


@lru_cache(maxsize=None)
def fillings(gaps, total, most):
    # document 01, 'The seven verdicts', row 4: failed ones fall in the gaps between working ones
    if gaps == 0:
        return int(total == 0)
    return sum(fillings(gaps - 1, total - here, most) for here in range(min(most, total) + 1))


def light_choices(n, weights, limit):
    # document 01, 'The seven verdicts', row 2: choices of failed ones that weigh under k, by number
    choices = Counter({(0, 0): 1})
    for weight in weights:
        grown = Counter(choices)
        for (failed, total), ways in choices.items():
            if total + weight < limit:
                grown[failed + 1, total + weight] += ways
        choices = grown
    counts = [0] * (n + 1)
    for (failed, _), ways in choices.items():
        counts[failed] += ways
    return counts


def ring_runs_count(n, failed, k):
    # document 01, 'The seven verdicts', row 5: each state is turned to start at each working one in turn
    working = n - failed
    return n * fillings(working, failed, k - 1) // working if working else 0


def line_apart_count(n, failed, r):
    # document 01, 'The seven verdicts', row 6: r - 1 working ones follow each failed one but the last
    if failed == 0:
        return 1
    return states_with(max(n - (failed - 1) * (r - 1), 0), failed)


def ring_apart_count(n, failed, r):
    # document 01, 'The seven verdicts', row 7: each state is turned to start at each failed one in turn
    if failed < 2:
        return n if failed else 1
    spare = n - failed * r
    return n * states_with(spare + failed - 1, failed - 1) // failed if spare >= 0 else 0


def counts_by_choice(rule, n, weights):
    """The count table by counting choices of failed ones, for any n."""
    # document 01, 'The seven verdicts': one counting argument from each row of the table
    kind, first, second = rule.numbers
    if kind == 2:
        return light_choices(n, weights, first)
    entry = {
        1: lambda j: states_with(n, j) if j < first else 0,
        3: lambda j: 0 if first <= j <= second else states_with(n, j),
        4: lambda j: fillings(n - j + 1, j, first - 1),
        5: lambda j: ring_runs_count(n, j, first),
        6: lambda j: line_apart_count(n, j, second),
        7: lambda j: ring_apart_count(n, j, second),
    }[kind]
    return [entry(j) for j in range(n + 1)]


def counts_by_reading(rule, n, weights):
    """The count table through the memory: a failed one multiplies by a wide base."""
    # document 01, 'The memory of a reading': the exact sum with P = 1 and Q = 2^66 carries all counts
    packed = read(rule, n, weights, int, lambda i, working, failed: working + (failed << 66))
    return [packed >> 66 * j & 2 ** 66 - 1 for j in range(n + 1)]
