"""Equations of documents 002 and 000 and the algorithm of document 003, to hold the verdicts against; published.py has what they print."""

from fractions import Fraction
from math import prod


def at_least_failed(k, chances):
    """Chance of failing, k out of n."""
    # document 002, equation 1
    if k > len(chances):
        return Fraction(0)
    if k <= 0:
        return Fraction(1)
    p, rest = chances[-1], chances[:-1]
    return (1 - p) * at_least_failed(k - 1, rest) + p * at_least_failed(k, rest)


def between_failed(low, high, chances):
    """Chance of failing, l to h out of n."""
    # document 002, equation 2
    if low > len(chances) or high < 0:
        return Fraction(0)
    if low <= 0 and high >= len(chances):
        return Fraction(1)
    p, rest = chances[-1], chances[:-1]
    return (1 - p) * between_failed(low - 1, high - 1, rest) + p * between_failed(low, high, rest)


def run_failed(k, chances, needed=None):
    """Chance of failing, k in a row on the line."""
    # document 002, equation 3, whose upper index starts at k
    needed = k if needed is None else needed
    if needed > len(chances):
        return Fraction(0)
    if needed <= 0:
        return Fraction(1)
    p, rest = chances[-1], chances[:-1]
    return (1 - p) * run_failed(k, rest, needed - 1) + p * run_failed(k, rest)


def line_window_works(r, chances):
    """Chance of working, no two failed in r in a row on the line."""
    # document 000, equation 1, with its boundary condition
    n = len(chances)
    if n <= 1:
        return Fraction(1)
    p, near = chances[-1], chances[max(n - r, 0):n - 1]
    far = chances[:max(n - r, 0)]
    return p * line_window_works(r, chances[:-1]) + (1 - p) * prod(near) * line_window_works(r, far)


def ring_window_as_printed(r, chances):
    """Document 000's chance for the ring; it holds only where n is at least 2r - 1."""
    # document 000, equation 8, components numbered from 1 and chance 1 at 0 and below
    n = len(chances)

    def product(start, stop):
        return prod(chances[j - 1] for j in range(start, stop + 1) if j >= 1)

    total = product(n - r + 2, n) * line_window_works(r, chances[:n - r + 1])
    for i in range(1, r):
        middle = product(1, i) * product(n - 2 * r + i + 2, n - r + i)
        failed = 1 - chances[n - r + i]
        rest = chances[i:max(n - 2 * r + i + 1, i)]
        total += middle * failed * product(n - r + i + 2, n) * line_window_works(r, rest)
    return total


def windows_work(pairs, chances):
    """Chance of working, in every r in a row at least k working ones, for several pairs."""
    # document 003, section 2: the vector of the last states, 1 for working, zeros at first; terms of groups that fail are removed
    longest = max(r for _, r in pairs)
    terms, failing = {(0,) * longest: Fraction(1)}, Fraction(0)
    for j, p in enumerate(chances, 1):
        shifted = {}
        for y, q in terms.items():
            for x, chance in ((1, p), (0, 1 - p)):
                shifted[*y[1:], x] = shifted.get((*y[1:], x), 0) + q * chance
        for k, r in pairs:
            removed = [y for y in shifted if j >= r and sum(y[longest - r:]) < k]
            failing += sum(shifted.pop(y) for y in removed)
        terms = shifted
    return 1 - failing
