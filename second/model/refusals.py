"""Document 01, 'Refusal numbers', with what document 02 adds: each condition, and the order in which each call gives them."""

from second.model.boards import boards_read
from second.model.terms import BOARDS_VERSION, KINDS, LONGEST_WINDOW, MOST_BOARDS, MOST_FANS, MOST_PAIRS, MOST_WEIGHT, PAIRS_KIND, TABLE_CELLS, UNITS


def bad_version(version):
    # document 02, request 11: "11 for versions not 1..3"
    return version not in UNITS


def bad_kind(rule):
    # document 01, 'Refusal numbers', row 1; document 02, request 05: "1 for kinds not 1..8"
    return rule.kind not in KINDS


def not_counted(rule):
    # document 02, request 05: "15 for a kind 8 count table, right after 1"
    return rule.kind == PAIRS_KIND


def bad_length(n):
    # document 01, 'Refusal numbers', row 2
    return not 1 <= n <= MOST_FANS


def bad_stretch(a, b, n):
    # document 01, 'Refusal numbers', row 3
    return a == 0 or b < a or b > n


def bad_board_count(g):
    # document 02, request 11: "20, g outside 1..4"
    return not 1 <= g <= MOST_BOARDS


def bad_boards(n, boards, rated):
    # document 02, request 11: "21, a fan's board number above g (rating calls: a rated fan's) or a board list not n long"
    return len(boards.of_fans) != n or any(board > len(boards.survivals) for board in rated)


def boards_refusal(version, n, boards, rated):
    # document 02, request 11: 20 before 21, and of versions 1 and 2 "20 and 21 don't arise"
    if version != BOARDS_VERSION:
        return None
    if bad_board_count(len(boards.survivals)):
        return 20
    return 21 if bad_boards(n, boards, rated) else None


def bad_survivals(rated, unit):
    # document 01, 'Refusal numbers', row 4; document 02, request 08: "4 against the file's unit"
    return any(survival > unit for survival in rated)


def bad_weights(rule, n, weights, rated):
    # document 01, 'Refusal numbers', row 5
    return rule.kind == 2 and (len(weights) != n or sum(rated) > MOST_WEIGHT)


def bad_pairs(rule, n):
    # document 02, request 05: "6 for a bad pair or number of pairs"; a number left over is half a pair
    if len(rule.more) % 2 or len(rule.pairs) > MOST_PAIRS:
        return True
    return not all(1 <= k <= r <= min(n, LONGEST_WINDOW) for k, r in rule.pairs)


def bad_rule(rule, n, rated_weights):
    # document 01, 'Refusal numbers', row 6, with the ranges of 'The seven verdicts'; kind 6 as document 02, request 03, mends it
    kind, first, second = rule.numbers
    if kind == PAIRS_KIND:
        return bad_pairs(rule, n)
    if kind == 3:
        return not 0 <= first <= second <= n
    if kind in (6, 7):
        return not (first == 2 and 2 <= second <= (MOST_FANS if kind == 6 else n))
    most = sum(rated_weights) if kind == 2 else n
    return not (1 <= first <= most and second == 0)


def rule_refusal(rule, n, weights):
    # document 01, 'Refusal numbers': 2, 5, 6, which the verdict and the count table share
    if bad_length(n):
        return 2
    if bad_weights(rule, n, weights, weights):
        return 5
    return 6 if bad_rule(rule, n, weights) else None


def verdict_refusal(rule, n, state, weights):
    # document 01, 'Refusal numbers': "The verdict checks 1, 2, 5, 6, 9"
    if bad_kind(rule):
        return 1
    return rule_refusal(rule, n, weights) or (9 if state >> n else None)


def count_refusal(rule, n, weights, room, slots):
    # document 01, 'Refusal numbers': "the count table 1, 2, 5, 6, 7, 8"; document 02, request 05: 15 "right after 1"
    if bad_kind(rule):
        return 1
    if not_counted(rule):
        return 15
    first = rule_refusal(rule, n, weights)
    if first:
        return first
    if room < TABLE_CELLS:
        return 7
    return 8 if slots < n + 1 else None


def place_refusal(rule, a, b, n):
    # document 01, 'Refusal numbers': 1, 2 and 3, the lowest that applies
    if bad_kind(rule):
        return 1
    if bad_length(n):
        return 2
    return 3 if bad_stretch(a, b, n) else None


def rated_refusal(rule, a, b, survivals, weights, board_survivals, unit):
    # document 01, 'Stretches': "Components and weights outside it are not read"; document 02, request 11: "4 for any board's survival number too"
    if bad_survivals(survivals[a - 1:b], unit) or bad_survivals(board_survivals, unit):
        return 4
    if bad_weights(rule, len(survivals), weights, weights[a - 1:b]):
        return 5
    return 6 if bad_rule(rule, b - a + 1, weights[a - 1:b]) else None


def figures_refusal(rule, a, b, survivals, weights, room, version, boards):
    # document 01, 'Refusal numbers': the figures' order; document 02, request 02: "3 now belongs to every figure"; request 08: 11 "first where it is
    # an input"; request 11: "in a rating call 20 and 21 come just before 4"
    n = len(survivals)
    if bad_version(version):
        return 11
    number = place_refusal(rule, a, b, n) or boards_refusal(version, n, boards, boards.of_fans[a - 1:b])
    if number:
        return number
    own = boards_read(version, boards).survivals
    return rated_refusal(rule, a, b, survivals, weights, own, UNITS[version]) or (7 if room < TABLE_CELLS else None)


def bad_fan(a, b, fan):
    # document 02, request 06: "17, fan number outside the stretch"
    return not a <= fan <= b


def worth_refusal(rule, a, b, fan, survivals, weights, room, version, boards):
    # document 02, request 06: "as for the figures, the chosen fan's own survival number included under 4", "then 17"
    return figures_refusal(rule, a, b, survivals, weights, room, version, boards) or (17 if bad_fan(a, b, fan) else None)
