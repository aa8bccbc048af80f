"""The public calls: verdict, count table, figures and worth, refusals first, and what they leave in the tables they borrow."""

from second.model.boards import boards_read, low_and_high_behind
from second.model.counts import counts_by_choice, counts_by_words
from second.model.refusals import count_refusal, figures_refusal, verdict_refusal, worth_refusal
from second.model.terms import MOST_FANS, NO_BOARDS, TABLE_CELLS, UNIT, UNITS, WORKS, Fails, Refusal
from second.model.verdicts import fails, place


def verdict(rule, n, state, weights):
    # document 01, 'Refusal numbers': "The lowest number that applies is given, and none otherwise"
    number = verdict_refusal(rule, n, state, weights)
    if number:
        return Refusal(number)
    # document 02, request 04: "works, or fails with a place"
    return Fails(place(rule, n, state)) if fails(rule, n, state, weights) else WORKS


def count_table(rule, n, weights, room=TABLE_CELLS, slots=MOST_FANS + 1):
    # document 01, 'The seven verdicts': "The count table has n + 1 entries"
    number = count_refusal(rule, n, weights, room, slots)
    if number:
        return Refusal(number)
    return counts_by_words(rule, n, weights) if n <= 10 else counts_by_choice(rule, n, weights)


def rated_boards(version, boards, a, b):
    """What a stretch has of boards: its own fans' numbers, and every board of the deck."""
    # document 02, request 11: "a deck has g boards"; document 01, 'Stretches': "as a list of those components alone would"
    read = boards_read(version, boards)
    return read._replace(of_fans=read.of_fans[a - 1:b])


def figures(rule, a, b, survivals, weights, room=TABLE_CELLS, version=1, boards=NO_BOARDS):
    # document 01, 'Stretches': "answers as a list of those components alone would, weights too"
    number = figures_refusal(rule, a, b, survivals, weights, room, version, boards)
    if number:
        return Refusal(number)
    return low_and_high_behind(rule, survivals[a - 1:b], weights[a - 1:b], rated_boards(version, boards, a, b), UNITS[version])


def with_fan(survivals, fan, survival):
    # document 02, request 06: "with that fan sure to work", its number S; "with it sure to fail", its number 0
    return [survival if place == fan else other for place, other in enumerate(survivals, 1)]


def lower_and_upper(rule, fan, survivals, weights, unit=UNIT, boards=NO_BOARDS):
    # document 02, request 06: "the lower is the first's low less the second's high, the upper the first's high less the second's low"; request 11: "a
    # fan sure to work may still lose its board"
    first = low_and_high_behind(rule, with_fan(survivals, fan, unit), weights, boards, unit)
    second = low_and_high_behind(rule, with_fan(survivals, fan, 0), weights, boards, unit)
    return first[0] - second[1], first[1] - second[0]


def worth(rule, a, b, fan, survivals, weights, room=TABLE_CELLS, version=1, boards=NO_BOARDS):
    # document 02, request 06: "the deck's chance with that fan sure to work less its chance with it sure to fail", of the stretch as of a list
    number = worth_refusal(rule, a, b, fan, survivals, weights, room, version, boards)
    if number:
        return Refusal(number)
    return lower_and_upper(rule, fan - a + 1, survivals[a - 1:b], weights[a - 1:b], UNITS[version], rated_boards(version, boards, a, b))


def working_table_after(cells, accepted):
    # document 01, 'Refusal numbers': "After an accepted call the first 7,800 cells of the working table are 0"
    return [0] * TABLE_CELLS + cells[TABLE_CELLS:] if accepted else cells


def count_slots_after(slots, answer):
    # document 01, 'Refusal numbers': "the count table's first n + 1 cells are written"
    if isinstance(answer, Refusal):
        return slots
    return answer + slots[len(answer):]
