"""Fans behind switchboards, document 02, request 11: the figures for each set of failed boards, and the boards combined."""

from functools import lru_cache
from math import prod

from second.model.figures import low_and_high, rounded_step
from second.model.terms import ASKED_AGAIN, BOARDS_VERSION, NO_BOARDS, UNIT
from second.model.verdicts import fails


def boards_read(version, boards):
    # document 02, request 11: "Versions 1 and 2 read as a deck without boards, unchanged: nothing of boards is read with them"
    return boards if version == BOARDS_VERSION else NO_BOARDS


def with_failed(failed, survivals, of_fans):
    # document 02, request 11: "For each set of failed boards the figures are worked with those fans' survival 0"
    lost = {place for place, board in enumerate(of_fans) if board in failed}
    return tuple(0 if place in lost else survival for place, survival in enumerate(survivals))


@lru_cache(maxsize=ASKED_AGAIN)
def figure(rule, survivals, weights, unit):
    """Low and high, worked out once: the sets of failed boards, the fans of a worth and the systems of a file ask for the same lists again."""
    return low_and_high(rule, survivals, weights, unit)


def low_and_high_behind(rule, survivals, weights, boards, unit=UNIT):
    """Low and high of fans behind boards; without boards those of the fans alone."""
    def combined(board, failed):
        # document 02, request 11: "Then the boards are combined by the same rounded step, one rounding each, board 1 last"
        if board > len(boards.survivals):
            return figure(rule, with_failed(failed, survivals, boards.of_fans), tuple(weights), unit)
        after_working, after_failed = combined(board + 1, failed), combined(board + 1, failed | {board})
        return rounded_step(boards.survivals[board - 1], after_working, after_failed, unit)

    return combined(1, frozenset())


def fans_failed(n, state, of_fans):
    """The fans that have failed in a state of fans and boards, whose bits stand above the fans', board 1 lowest."""
    # document 02, request 11: "A failed board fails its fans"
    own, failed = state % 2 ** n, state >> n
    return own | sum(1 << place for place, board in enumerate(of_fans) if board and failed >> board - 1 & 1)


def exact_sum_behind(rule, survivals, weights, boards, unit=UNIT):
    # document 02, request 11: "Condition three then sums over n + g parts"
    n, parts = len(survivals), [*survivals, *boards.survivals]
    return sum(
        prod(unit - p if state >> place & 1 else p for place, p in enumerate(parts))
        for state in range(2 ** len(parts))
        if not fails(rule, n, fans_failed(n, state, boards.of_fans), weights)
    )
