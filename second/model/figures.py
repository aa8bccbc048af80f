"""Low, high and the exact sum of a list, each by the memory and by going through every state."""

from math import prod

from second.model.memory import read
from second.model.terms import UNIT
from second.model.verdicts import fails


def rounded_step(survival, after_working, after_failed, unit):
    # document 01, 'The memory of a reading': "rounded down each time for low, rounded up"
    failure = unit - survival
    low = survival * after_working[0] + failure * after_failed[0]
    high = survival * after_working[1] + failure * after_failed[1]
    return low // unit, -(-high // unit)


def low_and_high(rule, survivals, weights, unit=UNIT):
    # document 01, 'The memory of a reading': "The answer is the value at the start with all n left"
    def end_value(works):
        return (unit, unit) if works else (0, 0)

    def step(i, after_working, after_failed):
        return rounded_step(survivals[i - 1], after_working, after_failed, unit)

    return read(rule, len(survivals), weights, end_value, step)


def low_and_high_by_words(rule, survivals, weights, unit=UNIT):
    """The same two figures with no memory: every word is an end of its own."""
    # document 01, 'The memory of a reading': a memory only merges states of equal value
    n = len(survivals)
    values = [(0, 0) if fails(rule, n, state, weights) else (unit, unit) for state in range(2 ** n)]
    for survival in survivals:
        values = [rounded_step(survival, values[at], values[at + 1], unit)
                  for at in range(0, len(values), 2)]
    return values[0]


def exact_sum(rule, survivals, weights, unit=UNIT):
    # document 01, 'The memory of a reading': "The exact sum E", read down without rounding
    def step(i, after_working, after_failed):
        return survivals[i - 1] * after_working + (unit - survivals[i - 1]) * after_failed

    return read(rule, len(survivals), weights, int, step)


def exact_sum_by_words(rule, survivals, weights, unit=UNIT):
    # document 01, 'The memory of a reading': "The exact sum E adds, over every working state"
    n = len(survivals)
    return sum(
        prod(unit - p if state >> place & 1 else p for place, p in enumerate(survivals))
        for state in range(2 ** n)
        if not fails(rule, n, state, weights)
    )
