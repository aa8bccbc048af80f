"""Checks of the second program's boards by other ways: all states of fans and boards gone through, in exact fractions, and refusals worked one by one.

Each group yields pairs: what was found, and what it must equal.
"""

import random
from fractions import Fraction
from itertools import product
from math import prod

from second.model.boards import exact_sum_behind, fans_failed, low_and_high_behind
from second.model.calls import figures, lower_and_upper, verdict, worth
from second.model.deck_file import deck_bytes, file_refusal, read_deck, system_numbers, write_deck
from second.model.figures import exact_sum_by_words, low_and_high, rounded_step
from second.model.loading import decklist_output, deckworth_output, rate, unit_of_file, worth_of_file
from second.model.refusals import bad_rule
from second.model.terms import BOARDS_VERSION, KINDS, MOST_BOARDS, NO_BOARDS, NO_KIND, UNITS, Boards, Deck, Refusal, Rule, System
from second.model.verdicts import fails
from second.samples.files import random_deck
from second.samples.lists import NO_VERSIONS, WITHOUT_BOARDS, over, random_boards, random_stretch, random_survivals, random_weights, rule_for, unread_boards

UNIT = UNITS[BOARDS_VERSION]
PARTS = 9  # the most fans and boards together whose states are all gone through


def random_systems(seed, count, unit=UNIT, parts=PARTS):
    """Systems of every kind by turns, behind one to four boards: rule, survival numbers, weights, boards."""
    rng = random.Random(seed)
    for place in range(count):
        g = rng.randint(1, MOST_BOARDS)
        n = rng.randint(1, parts - g)
        weights, boards = random_weights(rng, n), random_boards(rng, n, g)
        rule = rule_for(rng, KINDS[place % len(KINDS)], n, weights)
        survivals, own = ([number * unit // UNIT for number in numbers] for numbers in (random_survivals(rng, n, UNIT), boards.survivals))
        yield rule, survivals, weights, Boards(boards.of_fans, own)


def figures_by_words(rule, survivals, weights, boards, unit):
    """Low and high with no memory: every state of fans and boards is an end of its own. The fans' steps come first, from 1 to n, then the boards',
    from g down to 1."""
    n, g = len(survivals), len(boards.survivals)
    values = {(): None}
    for failed in product((0, 1), repeat=g):
        state = sum(bit << place for place, bit in enumerate(failed)) << n
        ends = [(0, 0) if fails(rule, n, fans_failed(n, state + own, boards.of_fans), weights) else (unit, unit) for own in range(2 ** n)]
        for survival in survivals:
            ends = [rounded_step(survival, ends[at], ends[at + 1], unit) for at in range(0, len(ends), 2)]
        values[failed] = ends[0]
    for board in range(g, 0, -1):
        values = {failed: rounded_step(boards.survivals[board - 1], values[(*failed, 0)], values[(*failed, 1)], unit)
                  for failed in product((0, 1), repeat=board - 1)}
    return values[()]


def chance_by_parts(rule, survivals, weights, boards, unit):
    """The exact chance: each part works or has failed by itself, a fan lasts with its board alone."""
    n, g, works = len(survivals), len(boards.survivals), Fraction(0)
    lasts = [Fraction(number, unit) for number in (*survivals, *boards.survivals)]
    for failed in product((False, True), repeat=n + g):
        down = [own or (board > 0 and failed[n + board - 1]) for own, board in zip(failed, boards.of_fans)]
        if not fails(rule, n, sum(1 << place for place, lost in enumerate(down) if lost), weights):
            works += prod((1 - chance if lost else chance for chance, lost in zip(lasts, failed)), start=Fraction(1))
    return works


def board_1_last():
    """Two fans on two boards in a unit of 4, where the order of the boards' steps shows."""
    # document 02, request 11: "one rounding each, board 1 last"
    rule, fans, boards = Rule(1, 2, 0), [2, 3], Boards([1, 2], [2, 2])
    yield low_and_high_behind(rule, fans, [], boards, 4), (1, 3)
    yield exact_sum_behind(rule, fans, [], boards, 4), 136
    yield figures_by_words(rule, fans, [], boards, 4), (1, 3)
    # the boards called by each other's number: the other order
    yield low_and_high_behind(rule, fans, [], Boards([2, 1], [2, 2]), 4), (2, 3)


def both_orders():
    """Boards that change numbers: the same exact chance, enclosed either way, and the figures differ now and then."""
    differ = 0
    for rule, survivals, weights, boards in random_systems(301, 400, 7):
        g = len(boards.survivals)
        turned = Boards([g + 1 - board if board else 0 for board in boards.of_fans], boards.survivals[::-1])
        yield exact_sum_behind(rule, survivals, weights, turned, 7), exact_sum_behind(rule, survivals, weights, boards, 7)
        differ += low_and_high_behind(rule, survivals, weights, turned, 7) != low_and_high_behind(rule, survivals, weights, boards, 7)
    yield differ > 0, True


def boards_enclosed():
    """Low and high are those of all states, and enclose the exact chance."""
    # document 02, request 11: "Condition three then sums over n + g parts, with S^(n+g-1) and a width of at most n + g - 1"
    seen = set()
    for unit in (UNIT, 2 ** 30, 10, 1):
        for rule, survivals, weights, boards in random_systems(302, 80, unit):
            parts = len(survivals) + len(boards.survivals)
            low, high = low_and_high_behind(rule, survivals, weights, boards, unit)
            exact = exact_sum_behind(rule, survivals, weights, boards, unit)
            yield low * unit ** (parts - 1) <= exact <= high * unit ** (parts - 1), True
            yield 0 <= high - low <= parts - 1 and 0 <= low and high <= unit, True
            yield (low, high), figures_by_words(rule, survivals, weights, boards, unit)
            seen.add((rule.kind, len(boards.survivals)))
    yield {kind for kind, _ in seen}, set(KINDS)
    yield {g for _, g in seen}, set(range(1, MOST_BOARDS + 1))


def boards_exactly():
    """E in exact fractions: by each part's own chance, and as a sum over the sets of failed boards."""
    for rule, survivals, weights, boards in random_systems(303, 96, UNIT, 7):
        n, g = len(survivals), len(boards.survivals)
        exact = Fraction(exact_sum_behind(rule, survivals, weights, boards, UNIT), UNIT ** (n + g))
        yield chance_by_parts(rule, survivals, weights, boards, UNIT), exact
        summed = Fraction(0)
        for failed in product((False, True), repeat=g):
            share = prod((Fraction(UNIT - p if lost else p, UNIT) for p, lost in zip(boards.survivals, failed)), start=Fraction(1))
            left = [0 if board and failed[board - 1] else p for p, board in zip(survivals, boards.of_fans)]
            summed += share * Fraction(exact_sum_by_words(rule, left, weights, UNIT), UNIT ** n)
        yield summed, exact


def sure_boards():
    """Boards that are sure to work change nothing; one that is sure to fail takes its fans; one that has all fans takes all."""
    rng = random.Random(304)
    for rule, survivals, weights, boards in random_systems(305, 240):
        n, g = len(survivals), len(boards.survivals)
        alone = low_and_high(rule, survivals, weights, UNIT)
        yield low_and_high_behind(rule, survivals, weights, Boards(boards.of_fans, [UNIT] * g), UNIT), alone
        yield low_and_high_behind(rule, survivals, weights, Boards([0] * n, boards.survivals), UNIT), alone
        lost = rng.randint(1, g)
        left = [0 if board == lost else p for p, board in zip(survivals, boards.of_fans)]
        ends = [UNIT if board != lost else 0 for board in range(1, g + 1)]
        yield low_and_high_behind(rule, survivals, weights, Boards(boards.of_fans, ends), UNIT), low_and_high(rule, left, weights, UNIT)
        dark = low_and_high(rule, [0] * n, weights, UNIT)
        yield low_and_high_behind(rule, survivals, weights, Boards([lost] * n, boards.survivals), UNIT), rounded_step(
            boards.survivals[lost - 1], alone, dark, UNIT)


def boards_without_fans():
    """A board that no rated fan is on changes nothing, whatever its number and its place among the others."""
    rng = random.Random(306)
    for rule, survivals, weights, boards in random_systems(307, 200):
        place = rng.randint(1, len(boards.survivals) + 1)
        moved = [board + (board >= place) for board in boards.of_fans]
        longer = [*boards.survivals[:place - 1], rng.choice((0, 1, UNIT, rng.randrange(UNIT))), *boards.survivals[place - 1:]]
        yield low_and_high_behind(rule, survivals, weights, Boards(moved, longer), UNIT), low_and_high_behind(rule, survivals, weights, boards, UNIT)


def between_others(rng, survivals, weights, boards):
    """The fans with others on either side, whose numbers are no survival numbers, weights or boards at all, and how many stand before them."""
    before, after = rng.randint(0, 3), rng.randint(0, 3)
    wide = [[beside] * before + list(numbers) + [beside] * after
            for numbers, beside in ((survivals, 2 ** 32 - 1), (weights, 65535), (boards.of_fans, rng.choice((5, 255))))]
    return before, wide[0], wide[1], Boards(wide[2], boards.survivals)


def stretches_behind_boards():
    """A stretch takes its own fans' board numbers and all the deck's boards; it may leave a board out."""
    rng, left_out = random.Random(308), 0
    for rule, survivals, weights, boards in random_systems(309, 240):
        n = len(survivals)
        before, longer, heavier, wider = between_others(rng, survivals, weights, boards)
        ends = before + 1, before + n
        wanted = low_and_high_behind(rule, survivals, weights, boards, UNIT)
        yield figures(rule, *ends, longer, heavier, version=BOARDS_VERSION, boards=wider), wanted
        fan = rng.randint(1, n)
        yield worth(rule, *ends, before + fan, longer, heavier, version=BOARDS_VERSION, boards=wider), lower_and_upper(
            rule, fan, survivals, weights, UNIT, boards)
        unused = set(range(1, len(boards.survivals) + 1)) - set(boards.of_fans)
        left_out += bool(unused)
        others = [rng.randrange(UNIT + 1) if board in unused else p for board, p in enumerate(boards.survivals, 1)]
        yield figures(rule, *ends, longer, heavier, version=BOARDS_VERSION, boards=Boards(wider.of_fans, others)), wanted
    yield left_out > 0, True


def better_boards():
    # document 02, request 11: "Req 09 wants the same g and the same fans' board numbers in both lists, and counts the boards' survival numbers"
    rng = random.Random(310)
    for unit in (UNIT, 7):
        for rule, survivals, weights, boards in random_systems(311, 240, unit):
            if rule.kind == 3:
                continue
            better = [[rng.randint(p, unit) if rng.random() < 0.5 else p for p in numbers] for numbers in (survivals, boards.survivals)]
            worn = low_and_high_behind(rule, survivals, weights, boards, unit)
            refitted = low_and_high_behind(rule, better[0], weights, Boards(boards.of_fans, better[1]), unit)
            yield worn[0] <= refitted[0] and worn[1] <= refitted[1], True
    # kind 3: docs/DECISIONS.md's two fans at 1/4, on a board that is sure to work and one that is better at 1/2 than at 1/4
    quarter = UNIT // 4
    shown = [low_and_high_behind(Rule(3, 1, 1), [quarter, UNIT], [], Boards([0, 1], [own]), UNIT) for own in (quarter, 2 * quarter)]
    yield shown, [(5 * UNIT // 8,) * 2, (UNIT // 2,) * 2]


def worths_behind_boards():
    # document 02, request 11: "Req 06's width reads n + g for n; a fan sure to work may still lose its board"
    for unit in (UNIT, 10, 1):
        for rule, survivals, weights, boards in random_systems(312, 48, unit, 7):
            n, parts = len(survivals), len(survivals) + len(boards.survivals)
            for fan in range(1, n + 1):
                lower, upper = lower_and_upper(rule, fan, survivals, weights, unit, boards)
                lists = [[p if place == fan else own for place, own in enumerate(survivals, 1)] for p in (unit, 0)]
                works, failing = (exact_sum_behind(rule, numbers, weights, boards, unit) for numbers in lists)
                yield lower * unit ** (parts - 1) <= works - failing <= upper * unit ** (parts - 1), True
                yield 0 <= upper - lower <= 2 * parts - 2 and -unit <= lower and upper <= unit, True
                ends = [figures_by_words(rule, numbers, weights, boards, unit) for numbers in lists]
                yield (lower, upper), (ends[0][0] - ends[1][1], ends[0][1] - ends[1][0])
    # a single fan, sure to work, lasts as its board does; on no board it lasts
    for own in (0, 1, UNIT // 3, UNIT):
        for board, wanted in ((1, own), (2, UNIT // 2), (0, UNIT)):
            boards = Boards([board], [own, UNIT // 2])
            yield worth(Rule(1, 1, 0), 1, 1, 1, [7], [], version=BOARDS_VERSION, boards=boards), (wanted, wanted)


# ---- refusals ----------------------------------------------------------------


def first_wrong(rule, a, b, survivals, weights, room, version, boards):
    """The first number of the requests' order that applies, each condition tried by itself."""
    n, g, has = len(survivals), len(boards.survivals), version == 3
    placed = 1 <= a <= b <= n
    fans = range(a - 1, b) if placed else ()
    total = sum(weights[fan] for fan in fans if fan < len(weights))
    applies = {
        11: version not in (1, 2, 3), 1: rule.kind not in KINDS, 2: n == 0 or n > 64, 3: not placed,
        20: has and not 1 <= g <= 4, 21: has and (len(boards.of_fans) != n or any(boards.of_fans[fan] > g for fan in fans if fan < len(boards.of_fans))),
        4: version in UNITS and (any(survivals[fan] > UNITS[version] for fan in fans) or has and any(p > UNIT for p in boards.survivals)),
        5: rule.kind == 2 and (len(weights) != n or total > 120), 6: rule.kind in KINDS and placed and bad_rule(rule, b - a + 1, weights[a - 1:b]),
        7: room < 7800,
    }
    return next((number for number in (11, 1, 2, 3, 20, 21, 4, 5, 6, 7) if applies[number]), None)


WRONGS = (
    lambda rng, q: q | {"room": rng.choice((0, 7799))},
    lambda rng, q: q | {"rule": q["rule"]._replace(first=rng.choice((0, 65, 2 ** 64 - 1)))},
    lambda rng, q: q | {"rule": Rule(2, 1, 0), "weights": rng.choice(([], [121] * len(q["survivals"]), q["weights"] + [1]))},
    lambda rng, q: q | {"survivals": [rng.choice((UNIT + 1, 2 ** 30, 2 ** 32 - 1)) if rng.random() < 0.5 else p for p in q["survivals"]]},
    lambda rng, q: q | {"boards": q["boards"]._replace(survivals=[rng.choice(over(UNIT))] + q["boards"].survivals[1:])},
    lambda rng, q: q | {"boards": q["boards"]._replace(of_fans=[board if rng.random() < 0.5 else len(q["boards"].survivals) + 1
                                                                for board in q["boards"].of_fans])},
    lambda rng, q: q | {"boards": q["boards"]._replace(of_fans=rng.choice(([], q["boards"].of_fans[1:], q["boards"].of_fans + [0])))},
    lambda rng, q: q | {"boards": q["boards"]._replace(survivals=rng.choice(([], [7] * 5, [7] * 256)))},
    lambda rng, q: q | {"a": rng.choice((0, q["b"] + 1, 2 ** 64 - 1))},
    lambda rng, q: q | {"survivals": rng.choice(([], q["survivals"][:1] * 65))},
    lambda rng, q: q | {"rule": q["rule"]._replace(kind=rng.choice((0, NO_KIND, 2 ** 64 - 1)))},
    lambda rng, q: q | {"version": rng.choice((*NO_VERSIONS, 2 ** 16 + 3, 2 ** 32 + 3, 1, 2))},
)


def refusals_behind_boards():
    """One to four things wrong at once, and nothing; a fan in the stretch or outside it."""
    # document 02, request 11: "in a rating call 20 and 21 come just before 4", "4 for any board's survival number too"
    rng, seen = random.Random(313), set()
    for rule, survivals, weights, boards in random_systems(314, 1500):
        a, b = random_stretch(rng, len(survivals))
        rule = rule_for(rng, rule.kind, b - a + 1, weights[a - 1:b])
        asked = {"rule": rule, "a": a, "b": b, "survivals": survivals, "weights": weights, "room": 7800, "version": BOARDS_VERSION, "boards": boards}
        for wrong in rng.sample(WRONGS, rng.choice((0, 1, 1, 2, 3, 4))):
            asked = wrong(rng, asked)
        wanted = first_wrong(**asked)
        answer = figures(**asked)
        seen.add(wanted)
        yield answer.number if isinstance(answer, Refusal) else None, wanted
        fan = rng.choice((0, a, b, b + 1))
        answer = worth(fan=fan, **asked)
        outside = None if asked["a"] <= fan <= asked["b"] else 17
        yield answer.number if isinstance(answer, Refusal) else None, wanted or outside
    yield seen, {None, 11, 1, 2, 3, 20, 21, 4, 5, 6, 7}


def refusals_one_by_one():
    """Each number with everything after it wrong as well."""
    rule, three, over_all, high = Rule(2, 0, 0), [1, 1, 1], [UNIT + 1] * 3, [2 ** 32 - 1]
    cases = (
        ((Rule(NO_KIND, 0, 0), 0, 9, [], [], 0, Boards([9], [])), 1), ((rule, 0, 9, [], [], 0, Boards([9], [])), 2),
        ((rule, 0, 9, over_all, [], 0, Boards([9], [])), 3), ((rule, 1, 3, over_all, [], 0, Boards([9], [])), 20),
        ((rule, 1, 3, over_all, [], 0, Boards([9], [UNIT + 1] * 5)), 20), ((rule, 1, 3, over_all, [], 0, Boards([9], high)), 21),
        ((rule, 1, 3, over_all, [], 0, Boards([0, 0, 2], high)), 21), ((rule, 1, 3, over_all, [], 0, Boards([0] * 4, high)), 21),
        ((rule, 1, 3, over_all, [], 0, Boards([], [1] * 4)), 21), ((rule, 1, 3, three, [], 0, Boards([0, 0, 5], [1] * 4)), 21),
        # the board number of a fan that is not rated
        ((rule, 1, 2, three, [], 0, Boards([0, 0, 255], high)), 4), ((rule, 2, 3, three, [], 0, Boards([255, 0, 0], high)), 4),
        ((rule, 1, 3, over_all, [], 0, Boards([0, 1, 1], [1])), 4), ((rule, 1, 3, three, [], 0, Boards([0, 0, 0], [1, 1, UNIT + 1])), 4),
        ((rule, 1, 3, three, [], 0, Boards([0, 1, 1], [1])), 5), ((rule, 1, 3, three, three, 0, Boards([0, 1, 1], [1])), 6),
        ((Rule(2, 1, 0), 1, 3, three, three, 7799, Boards([0, 1, 1], [UNIT])), 7),
    )
    for (which, a, b, survivals, weights, room, boards), number in cases:
        yield figures(which, a, b, survivals, weights, room, BOARDS_VERSION, boards), Refusal(number)
        yield worth(which, a, b, 0, survivals, weights, room, BOARDS_VERSION, boards), Refusal(number)
        yield [figures(which, a, b, survivals, weights, room, version, boards) for version in NO_VERSIONS], [Refusal(11)] * len(NO_VERSIONS)
    yield worth(Rule(1, 1, 0), 1, 3, 4, three, [], 7800, BOARDS_VERSION, Boards([0, 1, 1], [UNIT])), Refusal(17)
    yield verdict(Rule(1, 2, 0), 3, 1, []), "works"


def boards_unread():
    """Versions 1 and 2 answer the same whatever the boards' lists are, and are written and read without them."""
    # document 02, request 11: "Versions 1 and 2 read as a deck without boards, unchanged: nothing of boards is read with them"
    rng = random.Random(315)
    for rule, survivals, weights, _ in random_systems(316, 160):
        n = len(survivals)
        if rng.random() < 0.3:
            survivals[rng.randrange(n)] = rng.choice((UNIT + 1, 2 ** 32 - 1))
        boards, room, fan = unread_boards(rng, n), rng.choice((7800, 7800, 7799)), rng.randint(0, n + 1)
        numbers = system_numbers([System(rule._replace(first=min(rule.first, 65535)), 1, n)])
        for version in WITHOUT_BOARDS:
            yield figures(rule, 1, n, survivals, weights, room, version, boards), figures(rule, 1, n, survivals, weights, room, version)
            yield worth(rule, 1, n, fan, survivals, weights, room, version, boards), worth(rule, 1, n, fan, survivals, weights, room, version)
            lent = b"\7" * rng.choice((19, 20 + 6 * n + 9, 20 + 6 * n + 10, 800))
            yield write_deck(version, survivals, weights, boards, numbers, lent), write_deck(version, survivals, weights, NO_BOARDS, numbers, lent)
        deck = Deck(survivals, weights, [System(Rule(1, 1, 0), 1, n)], 2, boards)
        yield read_deck(deck_bytes(deck)), deck._replace(boards=NO_BOARDS)


# ---- files -------------------------------------------------------------------


def small_file():
    """Two fans on board 2 and on none, two boards, and two systems, byte by byte."""
    # document 02, request 11: the header of 28 bytes, and "in that order between weights and systems"
    pieces = (
        "0300 0000 0200 0200", "1c000000 24000000 32000000", "02000000 28000000",  # offsets 28, 36, 50; g, and the offset 40
        "0065cd1d 00ca9a3b", "0100 0200", "02 00", "80b2e60e 00ca9a3b",  # 1/2 and 1; weights; boards; 1/4 and 1
        "0100 0100 0000 0100 0200", "0200 0300 0000 0100 0200",
    )
    return bytes.fromhex("".join(pieces))


SMALL_DECK = Deck([UNIT // 2, UNIT], [1, 2], [System(Rule(1, 1, 0), 1, 2), System(Rule(2, 3, 0), 1, 2)], BOARDS_VERSION, Boards([2, 0], [UNIT // 4, UNIT]))


def files_of_version_3():
    """A file byte by byte, its header's every byte, and others there and back."""
    data = small_file()
    yield deck_bytes(SMALL_DECK), data
    yield read_deck(data), SMALL_DECK
    yield decklist_output(data), "deck 2 systems 2\nsystem 1 low 500000000 high 500000000\nsystem 2 low 1000000000 high 1000000000\n"
    yield unit_of_file(data), 10 ** 9
    # each byte of the header changed, the first of the order that applies
    order = ((0, 4, 11), (1, 1, 11), (2, 1, 11), (3, 1, 11), (4, 0, 2), (4, 65, 2), (5, 1, 2), (6, 0, 12), (6, 33, 12), (7, 1, 12),
             (20, 0, 20), (20, 5, 20), (21, 1, 20), (22, 1, 20), (23, 1, 20), (20, 1, 13), (20, 3, 13), (4, 1, 13), (6, 1, 13), (0, 1, 13), (0, 2, 13),
             (8, 20, 13), (9, 1, 13), (10, 1, 13), (11, 1, 13), (12, 35, 13), (13, 1, 13), (16, 51, 13), (17, 1, 13), (24, 41, 13), (24, 42, 13),
             (25, 1, 13), (26, 1, 13), (27, 1, 13), (40, 3, 21), (40, 255, 21), (41, 3, 21))
    places = {11: 0, 2: 1, 12: 2, 20: 3, 13: 4, 21: 5}
    for at, byte, refused in order:
        yield file_refusal(replaced(data, (at, byte))), refused
        for other, later, number in order:
            # a version without boards, and another g, have the rest read otherwise
            if other != at and places[number] > places[refused] and 0 not in (at, other) or refused == 11 and other != at:
                yield file_refusal(replaced(data, (at, byte), (other, later))), refused
    for length in range(len(data)):
        yield file_refusal(data[:length]), 10 if length < 28 else 13
        yield file_refusal(b"\4" + data[1:length]) if length else 10, 10 if length < 20 else 11
    yield file_refusal(data + b"\0"), 13
    # board numbers up to g are on a board, 0 on none
    yield [file_refusal(replaced(data, (40, board), (41, board))) for board in (0, 1, 2)], [None] * 3
    for system, fan, number in ((0, 1, 14), (3, 0, 14), (1, 0, 17), (1, 3, 17)):
        yield worth_of_file(data, system, fan), Refusal(number)
    yield rate(replaced(data, (45, 255)), 1), 2 ** 64 - 2 ** 32 + 4  # a board's survival number above the unit


def replaced(data, *bytes_at):
    found = bytearray(data)
    for at, byte in bytes_at:
        found[at] = byte
    return bytes(found)


def lines_behind_boards():
    """What is printed of a version 3 file is what the calls answer of its lists."""
    rng, seen = random.Random(317), set()
    for _ in range(60):
        deck = random_deck(rng, BOARDS_VERSION)
        data, n = deck_bytes(deck), len(deck.survivals)
        yield read_deck(data), deck
        if n > 16:
            continue
        listed = {"survivals": deck.survivals, "weights": deck.weights, "version": BOARDS_VERSION, "boards": deck.boards}
        for place, (system, line) in enumerate(zip(deck.systems, decklist_output(data).splitlines()[1:], strict=True), 1):
            answer = figures(*system, **listed)
            seen.add(answer.number if isinstance(answer, Refusal) else 0)
            yield line, f"system {place} " + (f"refused {answer.number}" if isinstance(answer, Refusal) else "low {} high {}".format(*answer))
        if n * len(deck.systems) < 40:
            wanted = [worth(*system, fan, **listed) for system in deck.systems for fan in range(1, n + 1)]
            told = [line.split(" ", 4)[4] for line in deckworth_output(data).splitlines()]
            yield told, [f"refused {one.number}" if isinstance(one, Refusal) else "lower {} upper {}".format(*one) for one in wanted]
    yield seen >= {0, 1, 3, 4, 6}, True


def boards_written():
    """Version 3 there and back, in rooms that suffice or not, and the writer's refusals in their order."""
    # document 02, request 11: "Req 01's writer writes version 3 too, with 20 and 21 before 16"
    rng = random.Random(318)
    for _ in range(60):
        deck = random_deck(rng, BOARDS_VERSION)
        data, numbers = deck_bytes(deck), system_numbers(deck.systems)
        typed = BOARDS_VERSION, deck.survivals, deck.weights, deck.boards, numbers
        room = bytes(rng.randrange(256) for _ in range(len(data) + rng.randrange(50)))
        yield write_deck(*typed, room), (len(data), data + room[len(data):])
        yield write_deck(*typed, data[:-1]), (Refusal(16), data[:-1])
    five, lent = [9, 0, 0, 0, 0], b"\7" * 48
    cases = (
        ([], [1], Boards([9], []), [], b"", 2), ([0], [], Boards([9], []), [], b"", 5), ([0], [1], Boards([9], []), five[:4], b"", 12),
        ([0], [1], Boards([9], []), five, b"", 20), ([0], [1], Boards([0], [0] * 5), five, lent, 20), ([0], [1], Boards([], [0] * 256), five, b"", 20),
        ([0], [1], Boards([2], [0]), five, b"", 21), ([0], [1], Boards([5], [0] * 4), five, b"\7" * 99, 21), ([0], [1], Boards([], [0]), five, lent, 21),
        ([0], [1], Boards([0, 0], [0]), five, b"", 21), ([0], [1], Boards([1], [0]), five, lent, 16), ([0], [1], Boards([0], [0]), five, b"", 16),
    )
    for survivals, weights, boards, numbers, room, number in cases:
        yield write_deck(BOARDS_VERSION, survivals, weights, boards, numbers, room), (Refusal(number), room)
        yield [write_deck(version, survivals, weights, boards, numbers, room)[0] for version in NO_VERSIONS], [Refusal(11)] * len(NO_VERSIONS)
    # the smallest and the largest; no number is judged but the boards'
    yield write_deck(BOARDS_VERSION, [0], [1], Boards([1], [2 ** 32 - 1]), [65535] * 5, b"\7" * 49)[0], 49
    longest = write_deck(BOARDS_VERSION, [2 ** 32 - 1] * 64, [65535] * 64, Boards([4] * 64, [2 ** 32 - 1] * 4), five * 32, b"\7" * 813)
    yield (longest[0], longest[1][-1]), (812, 7)


GROUPS = (board_1_last, both_orders, boards_enclosed, boards_exactly, sure_boards, boards_without_fans, stretches_behind_boards, better_boards,
          worths_behind_boards, refusals_behind_boards, refusals_one_by_one, boards_unread, files_of_version_3, lines_behind_boards, boards_written)
