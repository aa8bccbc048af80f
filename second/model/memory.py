"""Document 01, 'The memory of a reading': the table row by row, and a reading by it."""

from functools import lru_cache
from typing import Any, Callable, NamedTuple

from second.model.terms import DEAD, PAIRS_KIND


class Row(NamedTuple):
    """One row of the table under 'The memory of a reading'."""

    start: Any
    working: Callable
    failed: Callable
    end: Callable


def unless_over(memory, limit):
    # document 01, 'The memory of a reading', rows 1, 2 and 4: "k is dead", "k or more is dead"
    return DEAD if memory >= limit else memory


def lead_after_failed(rule, memory, weight):
    # document 01, 'The memory of a reading', row 5; lead t is held as (t, None)
    lead, run = memory
    if run is None:
        return DEAD if lead + 1 == rule.first else (lead + 1, None)
    return DEAD if run + 1 == rule.first else (lead, run + 1)


def lead_end(rule, memory):
    # document 01, 'The memory of a reading', row 5; as k <= n a lead never gets here alive
    lead, run = memory
    return lead + (run or 0) < rule.first


def clean_after_working(rule, memory):
    # document 01, 'The memory of a reading', row 7; clean x is held as (x, None)
    clean, gap = memory
    if gap is None:
        return min(clean + 1, rule.second - 1), None
    return clean, max(gap - 1, 0)


def clean_after_failed(rule, memory, weight):
    # document 01, 'The memory of a reading', row 7: only a clean memory or a gap of 0 lives
    clean, gap = memory
    return DEAD if gap else (clean, rule.second - 1)


def clean_end(rule, memory):
    # document 01, 'The memory of a reading', row 7: "(x, g) works exactly if x >= g"
    clean, gap = memory
    return gap is None or clean >= gap


def same(rule, memory):
    # document 01, 'The memory of a reading', rows 1 to 3: "unchanged"
    return memory


def always(rule, memory):
    # document 01, 'The memory of a reading', rows 1, 2, 4 and 6: the end "works"
    return True


# document 01, 'The memory of a reading': the table, row by row
ROWS = {
    1: Row(0, same, lambda rule, m, weight: unless_over(m + 1, rule.first), always),
    2: Row(0, same, lambda rule, m, weight: unless_over(m + weight, rule.first), always),
    3: Row(0, same, lambda rule, m, weight: m + 1,
           lambda rule, m: not rule.first <= m <= rule.second),
    4: Row(0, lambda rule, m: 0, lambda rule, m, weight: unless_over(m + 1, rule.first), always),
    5: Row((0, None), lambda rule, m: (m[0], 0), lead_after_failed, lead_end),
    6: Row(0, lambda rule, m: max(m - 1, 0),
           lambda rule, m, weight: DEAD if m else rule.second - 1, always),
    7: Row((0, None), clean_after_working, clean_after_failed, clean_end),
}


def pairs_row(pairs):
    """Kind 8's row; a state is 1 where the component has failed, the last one read last."""
    # document 02, request 05: "The memory is the states of the last components, as many as the longest window less one, all working at the start;
    # too few working in a window is dead, the end works"
    kept = max(r for _, r in pairs) - 1

    @lru_cache(maxsize=None)
    def after(memory, state):
        states = (*memory, state)
        return DEAD if any(states[-r:].count(0) < k for k, r in pairs) else states[1:]

    return Row((0,) * kept, lambda rule, m: after(m, 0), lambda rule, m, weight: after(m, 1), always)


def row_of(rule):
    return pairs_row(rule.pairs) if rule.kind == PAIRS_KIND else ROWS[rule.kind]


def read(rule, n, weights, end_value, step):
    """Value at the start with all n left; step joins the values after working and failed."""
    # document 01, 'The memory of a reading': "reading the components from n down to 1"
    row = row_of(rule)

    @lru_cache(maxsize=None)
    def value(left, memory):
        if memory == DEAD:
            return end_value(False)
        if left == 0:
            return end_value(row.end(rule, memory))
        weight = weights[left - 1] if rule.kind == 2 else 0
        after_working = value(left - 1, row.working(rule, memory))
        after_failed = value(left - 1, row.failed(rule, memory, weight))
        return step(left, after_working, after_failed)

    return value(n, row.start)
