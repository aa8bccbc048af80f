"""Checks of the second program against document 01, its sources and itself by other ways.

Each group yields pairs: what was found, and what it must equal.
"""

import random
from fractions import Fraction
from functools import wraps
from math import factorial

from second.cases import figures as figures_cases, words
from second.checks import sources
from second.model.calls import count_slots_after, count_table, figures, lower_and_upper, verdict, working_table_after, worth
from second.model.counts import counts_by_choice, counts_by_reading, counts_by_words, pascal_row
from second.model.deck_file import deck_bytes, file_refusal, listed_systems, read_deck, system_numbers, write_deck
from second.model.figures import exact_sum, exact_sum_by_words, low_and_high, low_and_high_by_words
from second.model.loading import decklist_output, deckworth_output, rate, unit_of_file, worth_of_file
from second.model.memory import row_of
from second.model.refusals import bad_rule
from second.model.terms import (
    DEAD, KINDS, LONGEST_WINDOW, MOST_PAIRS, NO_BOARDS, NO_KIND, PAIRS_KIND, SEVEN_KINDS, TABLE_CELLS, UNIT, UNITS, WORKS, Deck, Fails, Refusal, Rule, System,
)
from second.model.verdicts import fails, line_windows
from second.samples import published
from second.samples.files import DAMAGES, random_deck, random_files
from second.samples.lists import (
    NO_VERSIONS, WITHOUT_BOARDS, all_rules, longer_windows, random_pairs, random_rule, random_survivals, random_systems, random_weights, rules_in_range,
    same_chances, short_lines, two_windows, unread_boards, unread_more, wrong_further_pairs, wrong_numbers_of_pairs, wrong_rules,
)
from second.samples.published import DECK_FILE, DECK_LINES

SMALL_WEIGHTS = ([], [3], [2, 1], [2, 1, 1], [0, 3, 1, 2], [1, 0, 4, 0, 2], [1, 2, 0, 1, 3, 1],
                 [1, 1, 1, 1, 1, 1, 1], [2, 0, 1, 3, 0, 1, 1, 2], [1, 3, 0, 0, 2, 1, 1, 0, 2])


def in_either_version(group):
    """The group's checks for each version without boards and its unit."""
    @wraps(group)
    def checks():
        for version in WITHOUT_BOARDS:
            yield from group(version, UNITS[version])
    return checks


def small_systems(most):
    """Every rule in range for every n up to most, with weights."""
    for n in range(1, most + 1):
        for rule in all_rules(n, sum(SMALL_WEIGHTS[n])):
            yield rule, n, SMALL_WEIGHTS[n]


def published_figures():
    """What the documents print, by each way of answering that this program has."""
    for one in published.COUNTS:
        answer = count_table(one.rule, one.n, one.weights)
        yield published.agrees(answer, one.printed), True
        if not isinstance(answer, Refusal):
            yield counts_by_choice(one.rule, one.n, one.weights), answer
            yield counts_by_reading(one.rule, one.n, one.weights), answer
    for one in published.FIGURES:
        yield published.agrees(figures(one.rule, 1, len(one.survivals), one.survivals, one.weights), one.printed), True
    for one in published.VERDICTS:
        yield published.agrees(verdict(one.rule, one.n, one.state, one.weights), one.printed), True


def table_1_exactly():
    """Table 1 of document 002 with chances in tenths, which no survival number is."""
    for low, high, n, printed in published.TABLE_1:
        for tenths, figure in zip(published.TABLE_1_TENTHS, printed):
            works = Fraction(exact_sum(Rule(3, low, high), [10 - tenths] * n, [], 10), 10 ** n)
            yield f"{float(1 - works):.6f}", figure


def table_4_exactly():
    """Table 4 of document 002 with the printed chances; the misprinted figure from its count of working states too."""
    for n, r, k, failure, printed in published.TABLE_4:
        unit = failure.denominator
        works = Fraction(exact_sum(published.in_window(r, k), [unit - failure.numerator] * n, [], unit), unit ** n)
        text = printed.right if isinstance(printed, published.Misprint) else printed.text
        yield published.rounds_to(1 - works, text), True
        if isinstance(printed, published.Misprint):
            counted = published.WORKING_STATES_OF_30
            yield counts_by_reading(published.in_window(r, k), n, []), [*counted, *[0] * (n + 1 - len(counted))]
            yield sum(states * failure ** j * (1 - failure) ** (n - j) for j, states in enumerate(counted)), works
            yield published.rounds_to(1 - works, printed.text), False


def windows_table_exactly():
    """Table 1 of document 003 with the printed chance, and its states counted one by one where they are few."""
    for n, states, reliability in published.WINDOWS_TABLE:
        yield published.rounds_to(Fraction(100 * exact_sum(published.WINDOWS, [8] * n, [], 10), 10 ** n), reliability), True
        if n < 13:
            yield sum(counts_by_words(published.WINDOWS, n, [])), states


def example_file():
    # document 01, 'Deck file and printing': the hex and its four lines
    yield decklist_output(DECK_FILE), DECK_LINES
    yield rate(DECK_FILE, 1), 536870912 * 2 ** 32 + 536870912
    yield rate(DECK_FILE, 2), 671088640 * 2 ** 32 + 671088640
    for system, number in ((3, 6), (0, 14), (4, 14), (2 ** 64 - 1, 14)):
        yield rate(DECK_FILE, system), 2 ** 64 - 2 ** 32 + number
    systems = [System(Rule(kind, first, 0), 1, 3) for kind, first in ((1, 2), (4, 2), (4, 4))]
    half = Deck([UNIT // 2] * 3, [0] * 3, systems)
    yield deck_bytes(half), DECK_FILE
    yield read_deck(DECK_FILE), half


def traps():
    # document 01, 'Traps on this deck'
    half = [UNIT // 2] * 3
    yield Fraction(exact_sum_by_words(Rule(7, 2, 3), half, []), UNIT ** 3), Fraction(1, 2)
    yield sources.ring_window_as_printed(3, [Fraction(1, 2)] * 3), Fraction(11, 32)
    repeated = Fraction(exact_sum_by_words(Rule(6, 2, 3), half + half[:2], []), UNIT ** 5)
    yield repeated == Fraction(1, 2), False
    for rule, survivals, weights in random_systems(1, 70, 8):
        failing = rounded_down_failure(rule, survivals, weights)
        yield UNIT - failing, low_and_high(rule, survivals, weights)[1]


def rounded_down_failure(rule, survivals, weights):
    """The chance of failing, rounded down at every step, by words."""
    n = len(survivals)
    values = [UNIT * fails(rule, n, state, weights) for state in range(2 ** n)]
    for p in survivals:
        values = [(p * values[at] + (UNIT - p) * values[at + 1]) // UNIT
                  for at in range(0, len(values), 2)]
    return values[0]


def source_equations():
    """Equations 1 to 3 of document 002, 1 and 8 of document 000 and the algorithm of document 003 against the sum over words."""
    for rule, survivals, weights in random_systems(2, 160, 8):
        chances = [Fraction(p, UNIT) for p in survivals]
        works = Fraction(exact_sum_by_words(rule, survivals, weights), UNIT ** len(survivals))
        if rule.kind == 1:
            yield 1 - sources.at_least_failed(rule.first, chances), works
        elif rule.kind == 3:
            yield 1 - sources.between_failed(rule.first, rule.second, chances), works
        elif rule.kind == 4:
            yield 1 - sources.run_failed(rule.first, chances), works
        elif rule.kind == 6:
            yield sources.line_window_works(rule.second, chances), works
        elif rule.kind == 7 and len(survivals) >= 2 * rule.second - 1:
            yield sources.ring_window_as_printed(rule.second, chances), works
        elif rule.kind == PAIRS_KIND:
            yield sources.windows_work(rule.pairs, chances), works


def pascal():
    # document 01, 'The seven verdicts': "a fixed table of Pascal rows 0 to 64, 2,145 entries"
    yield sum(len(pascal_row(n)) for n in range(65)), 2145
    for n in range(65):
        yield sum(pascal_row(n)), 2 ** n
        yield pascal_row(n), [factorial(n) // factorial(j) // factorial(n - j) for j in range(n + 1)]
    for n in range(11):
        found = [0] * (n + 1)
        for state in range(2 ** n):
            found[bin(state).count("1")] += 1
        yield pascal_row(n), found


def lacking_by_text(rule, text):
    """Where windows with too few '0' begin in the text, by all pairs."""
    every = [rule.first, rule.second, *rule.more]
    return [start for at in range(0, len(every), 2) for start in range(len(text) - every[at + 1] + 1)
            if text[start:start + every[at + 1]].count("0") < every[at]]


def told_by_text(rule, text, weights):
    """The verdict read off the state written as text, component 1 first, '1' for failed."""
    kind, first, second = rule.numbers
    places = [place for place, mark in enumerate(text) if mark == "1"]
    if kind == PAIRS_KIND:
        return bool(lacking_by_text(rule, text))
    if kind == 1:
        return len(places) >= first
    if kind == 2:
        return sum(weights[place] for place in places) >= first
    if kind == 3:
        return first <= len(places) <= second
    if kind in (4, 5):
        return "1" * first in (text if kind == 4 else text + text)
    gaps = [right - left for left, right in zip(places, places[1:])]
    if kind == 7 and len(places) > 1:
        gaps.append(places[0] + len(text) - places[-1])
    return any(gap < second for gap in gaps)


def told_by_memory(rule, n, state, weights):
    """The verdict by reading the components from n down to 1 through the memory table."""
    row = row_of(rule)
    memory = row.start
    for place in reversed(range(n)):
        if memory == DEAD:
            return True
        if state >> place & 1:
            memory = row.failed(rule, memory, weights[place])
        else:
            memory = row.working(rule, memory)
    return memory == DEAD or not row.end(rule, memory)


def place_by_text(rule, text):
    """The place of a failing verdict by looking at the state as text, component 1 first."""
    kind, first, second = rule.numbers
    places = [place for place, mark in enumerate(text) if mark == "1"]
    if kind == PAIRS_KIND:
        return 1 + min(lacking_by_text(rule, text))
    if kind <= 3:
        return 0
    if kind in (4, 5):
        return 1 + (text if kind == 4 else text + text).find("1" * first)
    if kind == 6:
        return 1 + min(max(0, right - second + 1) for left, right in zip(places, places[1:]) if right - left < second)
    return 1 + min(start for start in range(len(text)) if (text + text)[start:start + second].count("1") > 1)


def places_two_ways():
    # document 02, request 04: all words of small n, and words of n up to 64
    systems = [(rule, n, weights, range(2 ** n)) for rule, n, weights in small_systems(7)]
    systems += [(rule, n, [], range(2 ** n)) for n, rule in short_lines() if not bad_rule(rule, n, [])]
    rng = random.Random(29)
    systems += [(rule, len(survivals), weights, [rng.getrandbits(len(survivals)) & rng.getrandbits(len(survivals)) for _ in range(4)])
                for rule, survivals, weights in random_systems(31, 700, 64)]
    for rule, n, weights, states in systems:
        for state in states:
            answer = verdict(rule, n, state, weights)
            if isinstance(answer, Fails):
                yield answer.place, place_by_text(rule, f"{state:0{n}b}"[::-1])
            else:
                yield told_by_text(rule, f"{state:0{n}b}"[::-1], weights), False


def verdicts_three_ways():
    for rule, n, weights in small_systems(7):
        for state in range(2 ** n):
            failed = fails(rule, n, state, weights)
            yield told_by_memory(rule, n, state, weights), failed
            yield told_by_text(rule, f"{state:0{n}b}"[::-1], weights), failed


def long_verdicts_three_ways():
    rng = random.Random(12)
    for rule, survivals, weights in random_systems(13, 700, 64):
        n = len(survivals)
        state = rng.getrandbits(n)
        for _ in range(rng.randrange(5)):
            state &= rng.getrandbits(n)
        failed = fails(rule, n, state, weights)
        yield told_by_memory(rule, n, state, weights), failed
        yield told_by_text(rule, f"{state:0{n}b}"[::-1], weights), failed


def counts_three_ways():
    for rule, n, weights in small_systems(8):
        counts = counts_by_words(rule, n, weights)
        if rule.kind in SEVEN_KINDS:
            yield counts_by_choice(rule, n, weights), counts
        yield counts_by_reading(rule, n, weights), counts
    rng = random.Random(3)
    for kind in SEVEN_KINDS:
        for n in (11, 29, 47, 64):
            weights = random_weights(rng, n)
            rule = random_rule(rng, kind, n, sum(weights))
            yield counts_by_choice(rule, n, weights), counts_by_reading(rule, n, weights)


def enclosure():
    # document 01, 'The memory of a reading': "The third condition reads"
    for unit in (UNIT, 10 ** 9, 10, 1):
        for rule, survivals, weights in random_systems(4, 84, 10):
            survivals = [p * unit // UNIT for p in survivals]
            n = len(survivals)
            low, high = low_and_high(rule, survivals, weights, unit)
            total = exact_sum_by_words(rule, survivals, weights, unit)
            yield low * unit ** (n - 1) <= total <= high * unit ** (n - 1), True
            yield 0 <= high - low <= n - 1, True
            yield 0 <= low and high <= unit, True


def better_lists():
    # document 02, request 09: "neither low nor high is lower .. for kinds 1, 2 and 4 to 8"
    rng = random.Random(9)
    for unit in (UNIT, 10 ** 9, 7):
        for rule, survivals, weights in random_systems(17, 160, 10):
            survivals = [survival * unit // UNIT for survival in survivals]
            better = [rng.randint(survival, unit) if rng.random() < 0.5 else survival for survival in survivals]
            if rule.kind != 3:
                worn, refitted = (low_and_high(rule, numbers, weights, unit) for numbers in (survivals, better))
                yield worn[0] <= refitted[0] and worn[1] <= refitted[1], True
    # "Kind 3 is excepted, with an example in docs/"
    yield low_and_high(Rule(3, 1, 1), [UNIT // 4, UNIT // 4], []), (671088640, 671088640)
    yield low_and_high(Rule(3, 1, 1), [UNIT // 4, UNIT // 2], []), (536870912, 536870912)


@in_either_version
def figures_two_ways(version, unit):
    rng = random.Random(5)
    for rule, n, weights in small_systems(6):
        survivals = random_survivals(rng, n, unit)
        yield figures(rule, 1, n, survivals, weights, version=version), low_and_high_by_words(rule, survivals, weights, unit)
    for rule, survivals, weights in random_systems(6, 70, 10, unit):
        yield figures(rule, 1, len(survivals), survivals, weights, version=version), low_and_high_by_words(rule, survivals, weights, unit)
        yield exact_sum(rule, survivals, weights, unit), exact_sum_by_words(rule, survivals, weights, unit)


def lines_no_longer_than_the_window():
    """Kind 6 as windows that fit the line, and, where the line is no longer than the window, as document 000's 2-out-of-n system."""
    rng = random.Random(23)
    for n, rule in short_lines():
        if bad_rule(rule, n, []):
            continue
        width = min(rule.second, n)
        for state in range(2 ** n):
            yield fails(rule, n, state, []), any((state & window).bit_count() >= 2 for window in line_windows(n, width))
        survivals = random_survivals(rng, n)
        works = exact_sum_by_words(rule, survivals, [])
        yield exact_sum(rule, survivals, []), works
        yield sources.line_window_works(rule.second, [Fraction(p, UNIT) for p in survivals]), Fraction(works, UNIT ** n)
        yield counts_by_choice(rule, n, []), counts_by_words(rule, n, [])
        yield counts_by_reading(rule, n, []), counts_by_words(rule, n, [])
        if n <= rule.second:
            yield works, exact_sum_by_words(Rule(1, 2, 0), survivals, [])


def pairs_by_states():
    """Every single pair for n up to 8, and two to four pairs: the memory of the last states, in which nothing is merged, against all states."""
    # document 02, request 05
    rng = random.Random(33)
    systems = [(rule, n) for n in range(1, 9) for rule in rules_in_range(PAIRS_KIND, n, 0)]
    systems += [(random_pairs(rng, n, count), n) for n in range(1, 12) for count in range(2, MOST_PAIRS + 1) for _ in range(4)]
    systems += [(two_windows(), n) for n in range(8, 12)]
    for rule, n in systems:
        survivals = random_survivals(rng, n)
        yield low_and_high(rule, survivals, []), low_and_high_by_words(rule, survivals, [])
        yield exact_sum(rule, survivals, []), exact_sum_by_words(rule, survivals, [])
        for state in range(2 ** n) if n < 8 else (rng.getrandbits(n) for _ in range(40)):
            failed = fails(rule, n, state, [])
            yield told_by_memory(rule, n, state, [0] * n), failed
            yield verdict(rule, n, state, []), Fails(place_by_text(rule, f"{state:0{n}b}"[::-1])) if failed else WORKS


def pairs_alike():
    """One pair is several pairs that say the same, and where another kind says it too, that kind."""
    rng = random.Random(35)
    for n in range(1, 9):
        for rule in rules_in_range(PAIRS_KIND, n, 0):
            k, r = rule.first, rule.second
            survivals = random_survivals(rng, n)
            here = low_and_high(rule, survivals, [])
            # given twice, four times, and beside a pair that asks for less in the same window
            yield [low_and_high(rule._replace(more=more), survivals, []) for more in ((k, r), (k, r) * 3, (1, r))], [here] * 3
            others = [Rule(4, r, 0)] if k == 1 else []
            others += [Rule(6, 2, r)] if k == r - 1 > 0 else []
            others += [Rule(1, n - k + 1, 0)] if r == n else []
            # document 003: "if there exists an I for which k_i = r_i, the system becomes a series system"
            others += [Rule(1, 1, 0)] if k == r else []
            yield from ((low_and_high(other, survivals, []), here) for other in others)


def pairs_refused():
    # document 02, request 05: "6 for a bad pair or number of pairs"
    rng = random.Random(37)
    for n in (1, 2, 5, 9, 10, 11, 64):
        wrong = [*wrong_rules(PAIRS_KIND, n, 0), *wrong_further_pairs(rng, n), *wrong_numbers_of_pairs(rng, n)]
        sound = [random_pairs(rng, n, count) for count in range(1, MOST_PAIRS + 1) for _ in range(3)]
        for rule in wrong + sound:
            answers = verdict(rule, n, 0, []), figures(rule, 1, n, [UNIT] * n, []), worth(rule, 1, n, 1, [UNIT] * n, [])
            yield [isinstance(answer, Refusal) and answer.number == 6 for answer in answers], [rule in wrong] * 3
    for k in range(1, LONGEST_WINDOW + 1):
        # r = 10 and 11 on a line of 64; r = n and n + 1
        for r, n in ((LONGEST_WINDOW, 64), (k, k)):
            yield isinstance(verdict(Rule(PAIRS_KIND, k, r), n, 0, []), Refusal), False
            yield verdict(Rule(PAIRS_KIND, k, r + 1), n, 0, []), Refusal(6)


def further_numbers_unread():
    """What stands beside a rule of another kind changes no answer, and the kind above them is refused whatever does."""
    rng = random.Random(39)
    for rule, survivals, weights in random_systems(40, 80, 8):
        n, state = len(survivals), rng.getrandbits(len(survivals))
        beside = rule._replace(more=unread_more(rng))
        if rule.kind in SEVEN_KINDS:
            yield verdict(beside, n, state, weights), verdict(rule, n, state, weights)
            yield figures(beside, 1, n, survivals, weights), figures(rule, 1, n, survivals, weights)
            yield worth(beside, 1, n, 1, survivals, weights), worth(rule, 1, n, 1, survivals, weights)
        yield verdict(beside._replace(kind=NO_KIND), n, state, weights), Refusal(1)


def rules_accepted():
    # document 01, 'The seven verdicts', column "range", listed against the test of refusal 6
    for n in (1, 2, 3, 5, 64):
        weights = [2] + [1] * (n - 1)
        numbers = (*range(LONGEST_WINDOW + 3), 63, 64, 65, 66, 2 ** 32, 2 ** 64 - 1)
        for kind in KINDS:
            listed = {*rules_in_range(kind, n, sum(weights)), *(longer_windows(n) if kind == 6 else ())}
            for first in numbers:
                for second in numbers:
                    rule = Rule(kind, first, second)
                    yield bad_rule(rule, n, weights), rule not in listed


@in_either_version
def refusals_of_calls(version, unit):
    # document 01, 'Refusal numbers': "The lowest number that applies is given"
    over = [unit, unit + 1, unit]
    three = [1, 1, 1]
    whole = (
        (Rule(0, 9, 9), [unit + 1] * 65, [], 0, 1), (Rule(NO_KIND, 1, 1), three, [], 7800, 1), (Rule(8, 1, 0), three, [], 7800, 6),
        (Rule(8, 1, 1, (1,)), [], [], 0, 2), (Rule(8, 1, 1, (1,)), over, [], 0, 4), (Rule(8, 1, 1, (1,)), three, [], 0, 6),
        (Rule(8, 1, 1, (1, 1)), three, [], 7799, 7),
        (Rule(1, 0, 0), [], [], 0, 2), (Rule(2, 0, 0), [unit + 1] * 65, [], 0, 2),
        (Rule(2, 0, 0), over, [], 0, 4), (Rule(2, 0, 0), three, [121, 0], 0, 5),
        (Rule(2, 1, 0), three, three + [1], 7800, 5), (Rule(2, 1, 0), three, [60, 60, 1], 7800, 5),
        (Rule(2, 1, 0), three, [0, 0, 0], 7800, 6),
        (Rule(2, 4, 1), three, three, 0, 6), (Rule(3, 2, 1), three, [], 0, 6),
        (Rule(1, 1, 0), three, [], 7799, 7), (Rule(6, 3, 3), three, [], 7800, 6),
    )
    for rule, survivals, weights, room, number in whole:
        yield figures(rule, 1, len(survivals), survivals, weights, room, version), Refusal(number)
    parts = (
        (Rule(NO_KIND, 0, 0), 0, 0, [], [], 0, 1), (Rule(2, 0, 0), 0, 0, [], [], 0, 2),
        (Rule(2, 0, 0), 0, 2, over, [], 0, 3), (Rule(1, 1, 0), 3, 2, over, [], 0, 3),
        (Rule(1, 1, 0), 1, 4, over, [], 0, 3),
        (Rule(1, 1, 0), 2 ** 63, 2 ** 64 - 1, three, [], 7800, 3),
        (Rule(2, 0, 0), 2, 2, over, [], 0, 4), (Rule(2, 0, 0), 3, 3, over, [1], 0, 5),
        (Rule(2, 1, 0), 1, 2, three, [60, 61, 1], 0, 5), (Rule(1, 2, 0), 3, 3, over, [], 0, 6),
        (Rule(2, 2, 0), 2, 3, three, [9, 1, 0], 7800, 6), (Rule(7, 2, 3), 1, 2, three, [], 0, 6),
        (Rule(1, 1, 0), 3, 3, over, [], 7799, 7),
    )
    for rule, a, b, survivals, weights, room, number in parts:
        yield figures(rule, a, b, survivals, weights, room, version), Refusal(number)


def refusals_of_states_and_counts():
    # document 01, 'Refusal numbers': "The verdict checks 1, 2, 5, 6, 9; the count table 1, 2, 5, 6, 7, 8"
    states = (
        (Rule(0, 0, 9), 0, 1, [], 1), (Rule(2 ** 63, 1, 0), 3, 8, [], 1), (Rule(2, 0, 9), 0, 1, [], 2),
        (Rule(1, 1, 0), 2 ** 64 - 1, 0, [], 2), (Rule(2, 0, 0), 3, 8, [1, 1], 5),
        (Rule(2, 0, 0), 2, 8, [120, 1], 5), (Rule(1, 4, 0), 3, 8, [], 6), (Rule(1, 1, 1), 3, 0, [], 6),
        (Rule(1, 1, 0), 3, 8, [], 9), (Rule(3, 0, 3), 3, 2 ** 63, [], 9),
    )
    for rule, n, state, weights, number in states:
        yield verdict(rule, n, state, weights), Refusal(number)
    yield verdict(Rule(1, 4, 0), 64, 2 ** 63, []), WORKS
    yield verdict(Rule(1, 1, 0), 3, 4, [121, 65535]), Fails(0)
    tables = (
        (Rule(0, 0, 0), 0, [], 0, 0, 1), (Rule(NO_KIND, 0, 0), 0, [], 0, 0, 1), (Rule(2, 0, 0), 65, [], 0, 0, 2),
        # document 02, request 05: "15 for a kind 8 count table, right after 1"
        (Rule(8, 0, 0), 0, [], 0, 0, 15), (Rule(8, 1, 1), 65, [], 0, 0, 15), (Rule(8, 1, 11), 3, [], 0, 0, 15), (Rule(8, 1, 1), 3, [], 7800, 4, 15),
        (Rule(2, 0, 0), 3, [], 0, 0, 5), (Rule(2, 0, 0), 3, [1] * 4, 7800, 4, 5),
        (Rule(4, 0, 0), 3, [], 0, 0, 6), (Rule(4, 1, 0), 3, [], 7799, 0, 7),
        (Rule(4, 1, 0), 3, [], 7800, 3, 8),
    )
    for rule, n, weights, room, slots, number in tables:
        yield count_table(rule, n, weights, room, slots), Refusal(number)
    yield count_table(Rule(4, 1, 0), 3, [], 7800, 4), [1, 0, 0, 0]


def sure(survivals, fan, survival):
    """A copy of the list with one fan's number replaced."""
    replaced = list(survivals)
    replaced[fan - 1] = survival
    return replaced


def worths_by_words():
    # document 02, request 06: "The exact difference lies between them, and they are at most 2n - 2 units apart. Both ends run from -S to S"
    for unit in (UNIT, 10 ** 9, 10, 1):
        for rule, survivals, weights in random_systems(14, 56, 8):
            survivals = [p * unit // UNIT for p in survivals]
            n = len(survivals)
            for fan in range(1, n + 1):
                lower, upper = lower_and_upper(rule, fan, survivals, weights, unit)
                works, failing = (sure(survivals, fan, p) for p in (unit, 0))
                exact = exact_sum_by_words(rule, works, weights, unit) - exact_sum_by_words(rule, failing, weights, unit)
                yield lower * unit ** (n - 1) <= exact <= upper * unit ** (n - 1), True
                yield 0 <= upper - lower <= 2 * n - 2, True
                yield -unit <= lower and upper <= unit, True
                ends = [low_and_high_by_words(rule, numbers, weights, unit) for numbers in (works, failing)]
                yield (lower, upper), (ends[0][0] - ends[1][1], ends[0][1] - ends[1][0])


def between_others(rng, survivals, weights, most):
    """The fans with up to so many more on either side, which no answer may read, and how many stand before them."""
    before, after = rng.randint(0, most), rng.randint(0, most)
    longer = [2 ** 32 - 1] * before + survivals + [2 ** 32 - 1] * after
    return before, longer, [65535] * before + weights + [65535] * after


@in_either_version
def worths_of_parts(version, unit):
    """A stretch's worths are those of a list of its fans alone, and the fan's own number changes none of them."""
    # document 01, 'Stretches': "answers as a list of those components alone would"
    rng = random.Random(15)
    for rule, survivals, weights in random_systems(16, 70, 8, unit):
        before, longer, heavier = between_others(rng, survivals, weights, 4)
        a, b = before + 1, before + len(survivals)
        for fan in range(1, len(survivals) + 1):
            alone = worth(rule, 1, len(survivals), fan, survivals, weights, version=version)
            yield worth(rule, a, b, before + fan, longer, heavier, version=version), alone
            replaced = sure(survivals, fan, rng.randrange(unit + 1))
            yield worth(rule, 1, len(survivals), fan, replaced, weights, version=version), alone


def plain_worths():
    """Worths that can be told without a reading."""
    half = UNIT // 2
    # two of three: the fan decides where exactly one of the other two has failed
    yield [worth(Rule(1, 2, 0), 1, 3, fan, [half] * 3, []) for fan in (1, 2, 3)], [(half, half)] * 3
    # two in a row: the middle fan decides unless both others work, an end fan where the middle one has failed and the other works
    yield [worth(Rule(4, 2, 0), 1, 3, fan, [half] * 3, []) for fan in (1, 2, 3)], [(half // 2,) * 2, (half // 2 * 3,) * 2, (half // 2,) * 2]
    for n in (1, 2, 5, 64):
        # a single fan that all hangs on; with the others sure, the range's two ends
        yield worth(Rule(1, 1, 0), 1, n, n, [UNIT] * n, []), (UNIT, UNIT)
        yield worth(Rule(3, 0, 0), 1, n, 1, [UNIT] * n, []), (-UNIT, -UNIT)
        # a system that always fails
        yield worth(Rule(3, 0, n), 1, n, 1, [half] * n, []), (0, 0)
    # a fan of no weight: both figures are those of the others alone, so the worth is their width to either side of 0
    rng = random.Random(17)
    for _ in range(40):
        others = rng.randint(1, 12)
        survivals, weights, fan = random_survivals(rng, others), random_weights(rng, others), rng.randint(1, others + 1)
        rule = random_rule(rng, 2, others, sum(weights))
        low, high = low_and_high(rule, survivals, weights)
        longer, lighter = ([*numbers[:fan - 1], more, *numbers[fan - 1:]] for numbers, more in ((survivals, 7), (weights, 0)))
        yield worth(rule, 1, others + 1, fan, longer, lighter), (low - high, high - low)


@in_either_version
def refusals_of_worths(version, unit):
    # document 02, request 06: "as for the figures, the chosen fan's own survival number included under 4 where the fan is in the stretch, then 17"
    three, over = [1, 1, 1], [1, unit + 1, 1]
    cases = (
        (Rule(NO_KIND, 0, 9), 0, 9, 0, [], [], 0, 1), (Rule(2, 0, 0), 0, 9, 0, [], [], 0, 2), (Rule(2, 0, 0), 2, 1, 9, over, [], 0, 3),
        (Rule(2, 0, 0), 1, 3, 9, over, [], 0, 4), (Rule(2, 0, 0), 1, 3, 0, three, [], 0, 5), (Rule(1, 4, 0), 1, 3, 0, three, [], 0, 6),
        (Rule(1, 1, 0), 1, 3, 0, three, [], 7799, 7), (Rule(1, 1, 0), 1, 3, 0, three, [], 7800, 17),
        (Rule(1, 1, 0), 1, 3, 4, three, [], 7800, 17), (Rule(1, 1, 0), 2, 2, 1, three, [], 7800, 17),
        (Rule(1, 1, 0), 2, 2, 3, three, [], 7800, 17), (Rule(1, 1, 0), 1, 3, 2 ** 64 - 1, three, [], 7800, 17),
        # the chosen fan's own number, in the stretch and out of it
        (Rule(1, 1, 0), 1, 3, 2, over, [], 7800, 4), (Rule(1, 1, 0), 2, 2, 2, over, [], 7800, 4),
        (Rule(1, 1, 0), 1, 1, 2, over, [], 7800, 17), (Rule(1, 1, 0), 3, 3, 2, over, [], 7800, 17),
    )
    for rule, a, b, fan, survivals, weights, room, number in cases:
        yield worth(rule, a, b, fan, survivals, weights, room, version), Refusal(number)
    yield worth(Rule(1, 1, 0), 2, 2, 2, [2 ** 32 - 1, unit, 2 ** 32 - 1], [], version=version), (unit, unit)


def worths_of_files():
    """What deckworth prints is what the call for C answers, on the documents' file and on others."""
    yield deckworth_output(DECK_FILE).splitlines()[:6], [
        *(f"system 1 fan {fan} lower 536870912 upper 536870912" for fan in (1, 2, 3)), "system 2 fan 1 lower 268435456 upper 268435456",
        "system 2 fan 2 lower 805306368 upper 805306368", "system 2 fan 3 lower 268435456 upper 268435456"]
    yield deckworth_output(DECK_FILE).splitlines()[6:], [f"system 3 fan {fan} refused 6" for fan in (1, 2, 3)]
    for system, fan, number in ((0, 1, 14), (4, 0, 14), (2 ** 64 - 1, 1, 14), (3, 0, 6), (1, 0, 17), (1, 4, 17), (1, 2 ** 64 - 1, 17)):
        yield worth_of_file(DECK_FILE, system, fan), Refusal(number)
    seen = set()
    for data in (data for data in random_files(18, 200) if len(data) < 300):
        if file_refusal(data):
            yield deckworth_output(data), decklist_output(data)
            yield worth_of_file(data, 0, 0), Refusal(file_refusal(data))
            continue
        deck = read_deck(data)
        asked = [(system, fan) for system in range(1, len(deck.systems) + 1) for fan in range(1, len(deck.survivals) + 1)]
        for (system, fan), line in zip(asked, deckworth_output(data).splitlines(), strict=True):
            answer = worth_of_file(data, system, fan)
            refused = isinstance(answer, Refusal)
            seen.add(answer.number if refused else 0)
            yield line, f"system {system} fan {fan} " + (f"refused {answer.number}" if refused else f"lower {answer[0]} upper {answer[1]}")
    yield seen, {0, 1, 3, 4, 5, 6, 17}


def chance_by_words(rule, survivals, weights, unit):
    """The exact sum over all states as a chance."""
    return Fraction(exact_sum_by_words(rule, survivals, weights, unit), unit ** len(survivals))


def same_chances_in_either_version():
    """Where the chances are the same, so is the exact sum, and both versions' figures and worths enclose it."""
    # document 02, request 08: "Conditions two and three read S as the file's own unit"
    rng = random.Random(42)
    asked = [(rule, same_chances(rng, len(survivals)), weights) for rule, survivals, weights in random_systems(43, 96, 9)]
    # those of the case files, which the proved program runs
    asked += [(one.rule, {case.version: case.survivals for case in (one, other)}, one.weights) for one, other in figures_cases.same_chance_pairs()]
    for rule, lists, weights in asked:
        chances = []
        for version, survivals in lists.items():
            n, unit = len(survivals), UNITS[version]
            exact = chance_by_words(rule, survivals, weights, unit)
            low, high = figures(rule, 1, n, survivals, weights, version=version)
            yield Fraction(low, unit) <= exact <= Fraction(high, unit) and high - low < n, True
            works, failing = (chance_by_words(rule, sure(survivals, n, number), weights, unit) for number in (unit, 0))
            lower, upper = worth(rule, 1, n, n, survivals, weights, version=version)
            yield Fraction(lower, unit) <= works - failing <= Fraction(upper, unit), True
            chances.append((exact, works, failing))
        yield chances[0], chances[1]


def refusals_of_versions():
    # document 02, request 08: 11 "first where it is an input; 4 against the file's unit"; request 11: "11 for versions not 1..3"
    decimal = UNITS[2]
    for version in NO_VERSIONS:
        for rule, a, b, survivals, room in ((Rule(NO_KIND, 0, 0), 0, 9, [], 0), (Rule(1, 1, 0), 1, 1, [UNIT + 1], 7800), (Rule(1, 1, 0), 1, 1, [0], 7800)):
            yield figures(rule, a, b, survivals, [], room, version), Refusal(11)
            yield worth(rule, a, b, 0, survivals, [], room, version), Refusal(11)
    for survival, version, refused in ((decimal, 2, False), (decimal + 1, 2, True), (UNIT, 2, True), (decimal + 1, 1, False), (UNIT, 1, False),
                                       (UNIT + 1, 1, True)):
        answer = Refusal(4) if refused else (survival, survival)
        yield figures(Rule(1, 1, 0), 1, 1, [survival], [], version=version), answer
        yield worth(Rule(1, 1, 0), 1, 1, 1, [survival], [], version=version), Refusal(4) if refused else (UNITS[version],) * 2
        data = deck_bytes(Deck([survival], [0], [System(Rule(1, 1, 0), 1, 1)], version))
        yield rate(data, 1), 2 ** 64 - 2 ** 32 + 4 if refused else survival * 2 ** 32 + survival
        yield read_deck(data).version, version


def units_of_files():
    """A file's unit by its first two bytes, and 0 where it is refused."""
    # document 02, request 08: "both are read for good"; request 11: "Version 3 of the file, in version 2's unit"
    for data in random_files(44, 120):
        unit = {b"\1\0": 2 ** 30, b"\2\0": 1000000000, b"\3\0": 1000000000}.get(data[:2])
        yield unit_of_file(data), 0 if file_refusal(data) else unit


@in_either_version
def stretches_read_inside_only(version, unit):
    # document 01, 'Stretches': what stands outside changes no answer
    rng = random.Random(7)
    for rule, survivals, weights in random_systems(8, 140, 8, unit):
        before, longer, heavier = between_others(rng, survivals, weights, 5)
        a, b = before + 1, before + len(survivals)
        yield figures(rule, a, b, longer, heavier, version=version), low_and_high_by_words(rule, survivals, weights, unit)


def deck_files():
    # document 01, 'Deck file and printing'
    rng = random.Random(9)
    for _ in range(100):
        deck = random_deck(rng)
        data = deck_bytes(deck)
        yield read_deck(data), deck
        head, fan = (28, 7) if deck.version == 3 else (20, 6)
        yield len(data), head + fan * len(deck.survivals) + 4 * len(deck.boards.survivals) + 10 * len(deck.systems)
        for length in {0, 1, 19, 20, 27, 28, rng.randrange(len(data)), len(data) - 1}:
            yield file_refusal(data[:length]), 10 if length < head else 13
    for place, data in enumerate(random_files(10, 20 * len(DAMAGES))):
        if place % 2 == 0:
            yield file_refusal(data), None
        else:
            yield decklist_output(data), f"file refused {rate(data, 1) % 2 ** 32}\n"


def printed_and_packed():
    """What decklist prints is what the loading computer's call packs."""
    seen = set()
    for data in list(random_files(11, 120))[::2]:
        for place, line in enumerate(decklist_output(data).splitlines()[1:], 1):
            head, tail = divmod(rate(data, place), 2 ** 32)
            refused = head == 2 ** 32 - 1
            seen.add(tail if refused else 0)
            text = f"refused {tail}" if refused else f"low {head} high {tail}"
            yield line, f"system {place} {text}"
    yield seen, {0, 1, 3, 4, 5, 6}


def decks_written():
    """What is written reads back as the same deck, and an accepted file written again is the same, in rooms of any length that suffices."""
    # document 02, request 01: "What it writes, the reader reads back as the same deck, and an accepted file written again gives the same bytes"
    rng = random.Random(31)
    for data in [DECK_FILE, *list(random_files(32, 120))[::2]]:
        deck = read_deck(data)
        numbers = system_numbers(deck.systems)
        yield listed_systems(numbers), deck.systems
        for more in (0, 1, rng.randrange(900)):
            room = bytes(rng.randrange(256) for _ in range(len(data) + more))
            yield write_deck(deck.version, deck.survivals, deck.weights, deck.boards, numbers, room), (len(data), data + room[len(data):])
        short = room[:len(data) - 1]
        yield write_deck(deck.version, deck.survivals, deck.weights, deck.boards, numbers, short), (Refusal(16), short)


def refusals_of_writing():
    # document 02, request 01: "2, weights' length not n as 5, 12 (a part system too), then 16, room too short, in that order"
    short, room = b"\7" * 35, b"\7" * 36
    five = [9, 0, 0, 0, 0]
    cases = (
        ([], [1], [], b"", 2), ([], [], five, room, 2), ([0] * 65, [0] * 65, five, b"\7" * 9999, 2), ([0] * 65, [], [], b"", 2),
        ([0], [], [], b"", 5), ([0], [1, 1], five[:4], short, 5), ([0] * 64, [0] * 63, five, b"\7" * 9999, 5),
        ([0], [1], [], short, 12), ([0], [1], five[:4], short, 12), ([0], [1], five + [1], room + room, 12), ([0], [1], five * 33, room * 12, 12),
        ([0], [1], five, short, 16), ([0], [1], five, b"", 16), ([0], [1], five * 2, room + b"\7" * 9, 16),
    )
    rng = random.Random(34)
    for survivals, weights, numbers, lent, number in cases:
        for boards in (NO_BOARDS, unread_boards(rng, len(survivals))):
            yield [write_deck(version, survivals, weights, boards, numbers, lent) for version in WITHOUT_BOARDS], [(Refusal(number), lent)] * 2
            # document 02, request 08: 11 "first where it is an input"
            yield [write_deck(version, survivals, weights, boards, numbers, lent) for version in NO_VERSIONS], [(Refusal(11), lent)] * len(NO_VERSIONS)
    # "It doesn't judge rules or survival numbers"
    yield [write_deck(version, [2 ** 32 - 1], [65535], NO_BOARDS, [65535] * 5, room)[0] for version in WITHOUT_BOARDS], [36] * 2
    yield [write_deck(version, [0] * 64, [0] * 64, NO_BOARDS, five * 32, b"\7" * 724)[0] for version in WITHOUT_BOARDS], [724] * 2
    yield [write_deck(version, [0], [1], NO_BOARDS, five, room)[0] for version in NO_VERSIONS], [Refusal(11)] * len(NO_VERSIONS)


def header_damage():
    # document 01, 'Refusal numbers': "A file is checked 10, 11, 2, 12, 13", the earlier wins
    order = ((0, 4, 11), (2, 1, 11), (4, 0, 2), (4, 65, 2), (6, 0, 12), (6, 33, 12), (8, 21, 13),
             (9, 1, 13), (12, 33, 13), (13, 1, 13), (16, 39, 13), (19, 1, 13))
    for at, number, refused in order:
        data = bytearray(DECK_FILE)
        data[at] = number
        yield file_refusal(bytes(data)), refused
        yield rate(bytes(data), 0), 2 ** 64 - 2 ** 32 + refused
        for later, other, _ in order:
            if later > at:
                both = bytearray(data)
                both[later] = other
                yield file_refusal(bytes(both)), refused
    yield file_refusal(DECK_FILE + b"\0"), 13
    yield file_refusal(DECK_FILE[:-1]), 13
    yield file_refusal(b"\2" * 19), 10


def lent_tables():
    # document 01, 'Refusal numbers': "After an accepted call the first 7,800 cells"
    yield words.rubbish(0, 1)[0], [1442695040888963407]
    yield words.rubbish(1, 1)[0], [7806831264735756412]
    step = (7806831264735756412 * 6364136223846793005 + 1442695040888963407) % 2 ** 64
    yield words.rubbish(1, 1, 1)[1], [step]
    yield words.checksum([5, 7, 2 ** 64 - 1]), 16
    yield words.pack([1, 2 ** 63]), bytes.fromhex("0100000000000000" + "0000000000000080")
    cells = list(range(1, TABLE_CELLS + 3))
    yield working_table_after(cells, True), [0] * TABLE_CELLS + [TABLE_CELLS + 1, TABLE_CELLS + 2]
    yield working_table_after(cells, False), cells
    yield count_slots_after([7, 8, 9, 10], [1, 2, 0]), [1, 2, 0, 10]
    yield count_slots_after([7, 8], Refusal(8)), [7, 8]


GROUPS = (
    published_figures, table_1_exactly, table_4_exactly, windows_table_exactly, example_file, traps, source_equations, pascal, verdicts_three_ways,
    places_two_ways, long_verdicts_three_ways,
    counts_three_ways, enclosure, better_lists, figures_two_ways, lines_no_longer_than_the_window, pairs_by_states, pairs_alike, pairs_refused,
    further_numbers_unread, rules_accepted, refusals_of_calls,
    refusals_of_states_and_counts, stretches_read_inside_only, deck_files, printed_and_packed,
    decks_written, refusals_of_writing, header_damage, lent_tables, worths_by_words, worths_of_parts, plain_worths, refusals_of_worths,
    worths_of_files, same_chances_in_either_version, refusals_of_versions, units_of_files,
)
