"""Document 01, 'The seven verdicts', and kind 8 of document 02: whether a system fails in one state, and where."""

from functools import lru_cache
from itertools import combinations

from second.model.terms import PAIRS_KIND


def mask(window):
    # document 01, 'The seven verdicts': "bit i - 1 is one where component i has failed"
    return sum(1 << (component - 1) for component in window)


@lru_cache(maxsize=None)
def line_windows(n, length):
    # document 01, 'The seven verdicts', rows 4 and 6: "in a row, on the line"
    return [mask(range(start, start + length)) for start in range(1, n - length + 2)]


@lru_cache(maxsize=None)
def ring_windows(n, length):
    # document 01, 'The seven verdicts', row 5: "the same on the ring, n followed by 1"
    return [mask((start + step) % n + 1 for step in range(length)) for start in range(n)]


def failed_weight(state, weights):
    # document 01, 'The seven verdicts', row 2: "the failed components' weights add up"
    return sum(weight for place, weight in enumerate(weights) if state >> place & 1)


def window_rule(rule, n):
    # document 01, 'The seven verdicts', rows 4 to 7: which windows, and how many failed in one
    if rule.kind == 4:
        return line_windows(n, rule.first), rule.first
    if rule.kind == 5:
        return ring_windows(n, rule.first), rule.first
    if rule.kind == 6:
        return line_windows(n, rule.second), 2
    return ring_windows(n, rule.second), 2


def two_near(r, state):
    # document 02, request 03: "the system fails exactly if two failed components' numbers differ by less than r"
    failed = [component for component in range(1, state.bit_length() + 1) if state >> component - 1 & 1]
    return any(later - earlier < r for earlier, later in combinations(failed, 2))


def lacking_starts(pairs, n, state):
    """The starts of windows that hold fewer working ones than their pair asks for."""
    # document 02, request 05: "failing exactly if some r in a row hold fewer than k working"
    return [start for k, r in pairs for start, window in enumerate(line_windows(n, r), 1) if r - (state & window).bit_count() < k]


def fails(rule, n, state, weights):
    # document 01, 'The seven verdicts': "the system fails exactly if"
    if rule.kind == 1:
        return state.bit_count() >= rule.first
    if rule.kind == 2:
        return failed_weight(state, weights) >= rule.first
    if rule.kind == 3:
        return rule.first <= state.bit_count() <= rule.second
    if rule.kind == 6:
        return two_near(rule.second, state)
    if rule.kind == PAIRS_KIND:
        return bool(lacking_starts(rule.pairs, n, state))
    windows, least = window_rule(rule, n)
    return any((state & window).bit_count() >= least for window in windows)


def place(rule, n, state):
    # document 02, request 04: "for kinds 4 to 7 the lowest component at which a failing window starts", "for kinds 1 to 3 place 0"
    if rule.kind <= 3:
        return 0
    if rule.kind == 6 and n <= rule.second:
        return 1  # "a kind 6 line no longer than r starts at 1"
    if rule.kind == PAIRS_KIND:
        # document 02, request 05: "A failing verdict names the lowest start of any failing window"
        return min(lacking_starts(rule.pairs, n, state))
    windows, least = window_rule(rule, n)
    return next(component for component, window in enumerate(windows, 1) if (state & window).bit_count() >= least)
