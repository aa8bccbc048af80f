"""Every figure for kinds 1 to 8 that a document prints, with the place where it stands, and what agreeing with it means.

The case files begin with these, so that the proved programs run them; tests/published.py holds the stored answers to what is printed here.
docs/SOURCES.md says what the documents are. Document 002's other tables are of windows wider than kind 8's, of bounds or of running times, and
document 003's figures are drawings; document 000 prints no number beside its equations 2 to 7, which are worked below.
"""

from fractions import Fraction
from typing import Any, NamedTuple

from second.model.terms import MOST_FANS, PAIRS_KIND, UNIT, WORKS, Fails, Refusal, Rule

HALF = UNIT // 2
ACCEPTED = "accepted"  # the document says no more than that it is no refusal
FAILING = "failing"  # document 01 prints no place


class Count(NamedTuple):
    """Printed: all entries of the count table, or some of them by number."""

    where: str
    rule: Rule
    n: int
    weights: list
    printed: Any


class Rated(NamedTuple):
    """Printed: low and high, or an exact chance of working, or a Failing, a Misprint or a Percent."""

    where: str
    rule: Rule
    survivals: list
    weights: list
    printed: Any


class Judged(NamedTuple):
    """Printed: works or fails."""

    where: str
    rule: Rule
    n: int
    state: int
    weights: list
    printed: Any


class Failing(NamedTuple):
    """A chance of failing as it is printed, to as many digits as it has after the point."""

    text: str


class Misprint(NamedTuple):
    """A chance of failing that is printed wrong, and what it should read (docs/DECISIONS.md, 'Published figures')."""

    text: str
    right: str


class Percent(NamedTuple):
    """A chance of working in percent, as it is printed."""

    text: str


def rounds_to(number, text):
    """Does the number, to as many digits after the point as the text has, read so?"""
    scale = 10 ** len(text.partition(".")[2])
    return round(number * scale) == Fraction(text) * scale


def agrees(answer, printed):
    """Is the answer what is printed?"""
    if printed == ACCEPTED:
        return not isinstance(answer, Refusal)
    if printed == FAILING:
        return isinstance(answer, Fails)
    if isinstance(answer, Refusal) or isinstance(printed, Refusal):
        return answer == printed
    if isinstance(printed, dict):
        return all(answer[entry] == count for entry, count in printed.items())
    if isinstance(printed, Fraction):
        return all(Fraction(end, UNIT) == printed for end in answer)
    if isinstance(printed, Failing):
        return all(rounds_to(1 - Fraction(end, UNIT), printed.text) for end in answer)
    if isinstance(printed, Misprint):
        return agrees(answer, Failing(printed.right)) and not agrees(answer, Failing(printed.text))
    if isinstance(printed, Percent):
        return all(rounds_to(100 * Fraction(end, UNIT), printed.text) for end in answer)
    return answer == printed


# ---- document 002 ------------------------------------------------------------

# Section 3.2, table 1: l, h, n and what stands under p = 0.5 to 0.9. It is headed "Reliability" and prints the chance of failing, with p for the
# chance that a component fails. The row of l = 5, h = 8, n = 10 has no figures in the copy that the owner handed over.
TABLE_1_TENTHS = (5, 6, 7, 8, 9)
TABLE_1 = (
    (5, 9, 12, ("0.786865", "0.859247", "0.737695", "0.441073", "0.110867")),
    (10, 12, 15, ("0.147186", "0.376102", "0.594794", "0.540925", "0.181811")),
)


def table_1():
    for low, high, n, printed in TABLE_1:
        for tenths, text in zip(TABLE_1_TENTHS, printed):
            survival = round(Fraction(10 - tenths, 10) * UNIT)
            yield Rated(f"document 002, table 1, l = {low}, h = {high}, n = {n}, p = 0.{tenths}",
                        Rule(3, low, high), [survival] * n, [], Failing(text))


# Section 4.2, table 4: n, r, k, Q and what the BDD's row prints under F, the chance that some r in a row hold k failed ones or more, which is fewer
# than r - k + 1 working. The rows of r = 12, 35 and 40 have windows wider than kind 8's; the other methods' rows print bounds and estimates.
TABLE_4 = (
    (15, 10, 4, Fraction(1, 4), Failing("0.394538")),
    (15, 7, 5, Fraction(1, 4), Failing("0.0570453")),
    (30, 6, 3, Fraction(1, 10), Misprint("0.1514353", "0.1514351")),
    (40, 7, 4, Fraction(1, 10), Failing("0.0421106")),
)

# Of the misprinted row, the working states by number failed: all 2^30 states were gone through, and each was judged by its 25 windows.
WORKING_STATES_OF_30 = (1, 30, 435, 3800, 21615, 81054, 196085, 285804, 221496, 69420, 5292)


def in_window(r, failed):
    """Kind 8's rule for so many failed ones in r in a row."""
    return Rule(PAIRS_KIND, r - failed + 1, r)


def table_4():
    for n, r, k, failure, printed in TABLE_4:
        yield Rated(f"document 002, table 4, n = {n}, r = {r}, k = {k}, Q = {float(failure)}",
                    in_window(r, k), [round((1 - failure) * UNIT)] * n, [], printed)


# ---- document 003 ------------------------------------------------------------

# Section 5, table 1: of the (1, 2, 3)-out-of-(5, 7, 8)-from-n system with p = 0.8, n, the rows of U_p, each of which is a working state, and the
# system's reliability in percent.
WINDOWS = Rule(PAIRS_KIND, 1, 5, (2, 7, 3, 8))
WINDOWS_TABLE = (
    (9, 410, "99.736"), (10, 784, "99.663"), (11, 1501, "99.591"), (12, 2875, "99.519"), (13, 5506, "99.448"), (14, 10537, "99.376"),
    (15, 20148, "99.305"), (16, 38491, "99.234"), (17, 73556, "99.162"),
)


def windows_table():
    for n, states, reliability in WINDOWS_TABLE:
        where = f"document 003, table 1, n = {n}"
        yield Rated(where, WINDOWS, [round(Fraction(8, 10) * UNIT)] * n, [], Percent(reliability))
        # with every fan as likely to last as not, each working state counts alike
        yield Rated(f"{where}, rows of U_p", WINDOWS, [HALF] * n, [], Fraction(states, 2 ** n))


# ---- document 000 ------------------------------------------------------------

# Survival in quarters, components 1 to 7, so that nothing is rounded; unlike, so that a component taken for another shows.
QUARTERS = (3, 2, 1, 3, 1, 2, 3)


def equations_2_to_7():
    """The line of 3 to 7 components under a window of 3, as section 3.1 works it."""
    p = [None, *(Fraction(quarter, 4) for quarter in QUARTERS)]
    q = [None, *(1 - chance for chance in p[1:])]
    works = {2: p[2] + q[2] * p[1]}
    works[3] = p[3] * works[2] + q[3] * p[2] * p[1]
    works[4] = p[4] * works[3] + q[4] * p[3] * p[2]
    works[5] = p[5] * works[4] + q[5] * p[4] * p[3] * works[2]
    works[6] = p[6] * works[5] + q[6] * p[5] * p[4] * works[3]
    works[7] = p[7] * works[6] + q[7] * p[6] * p[5] * works[4]
    for n in range(3, 8):
        yield Rated(f"document 000, equation {n}, p = {'/4, '.join(map(str, QUARTERS[:n]))}/4",
                    Rule(6, 2, 3), [quarter * UNIT // 4 for quarter in QUARTERS[:n]], [], works[n])


# ---- document 01 -------------------------------------------------------------

EXAMPLES = "document 01, 'Proved examples', "
RUN_ONLY = EXAMPLES + "run only"
TRAPS = "document 01, 'Traps on this deck', "
MANY = (2, 3, 8, 64)  # lengths for "r = n"; kinds 6 and 7 have no rule for a single component

COUNTED_EXAMPLES = [
    Count(EXAMPLES + "A", Rule(6, 2, 3), 7, [], [1, 7, 10, 1, 0, 0, 0, 0]),
    Count(EXAMPLES + "B", Rule(7, 2, 3), 7, [], [1, 7, 7, 0, 0, 0, 0, 0]),
    Count(EXAMPLES + "C", Rule(4, 2, 0), 4, [], [1, 4, 3, 0, 0]),
    Count(EXAMPLES + "D", Rule(5, 2, 0), 4, [], [1, 4, 2, 0, 0]),
    Count(EXAMPLES + "E", Rule(3, 1, 2), 4, [], [1, 0, 0, 4, 1]),
    Count(EXAMPLES + "F", Rule(2, 2, 0), 3, [2, 1, 1], [1, 2, 0, 0]),
]

JUDGED_EXAMPLES = [
    Judged(EXAMPLES + "G", Rule(6, 2, 3), 7, 9, [], WORKS),
    Judged(EXAMPLES + "G", Rule(6, 2, 3), 7, 5, [], FAILING),
    Judged(EXAMPLES + "H", Rule(6, 2, 3), 7, 33, [], WORKS),
    Judged(EXAMPLES + "H", Rule(7, 2, 3), 7, 33, [], FAILING),
]

RATED_EXAMPLES = [
    Rated(EXAMPLES + "I", Rule(1, 1, 0), [1, 1], [], (0, 1)),
    Rated(EXAMPLES + "J", Rule(1, 2, 0), [1, 1], [], (1, 2)),
    Rated(EXAMPLES + "K", Rule(1, 1, 0), [UNIT], [], (UNIT, UNIT)),
]

# Each is a case that a program in the trap answers otherwise; the last trap, a table taken to be clear, is every case's: each is run on a
# table full of rubbish.
RATED_TRAPS = [
    # 11/32 by document 000's equation 8
    Rated(TRAPS + "a short ring", Rule(7, 2, 3), [HALF] * 3, [], Fraction(1, 2)),
    # document 000's figure 1 divides by a survival number that leaves its window
    Rated(TRAPS + "a survival number of 0", Rule(6, 2, 2), [0, UNIT, 0], [], Fraction(1)),
    Rated(TRAPS + "a survival number of 0", Rule(7, 2, 2), [0, UNIT, 0, UNIT], [], Fraction(1)),
    # as a line with the first 2 repeated it is 41/512; by example B 1 + 7 + 7 of 128 states work
    Rated(TRAPS + "a ring worked as a longer line", Rule(7, 2, 3), [HALF] * 7, [], Fraction(15, 128)),
    # S less the failure chance rounded down: 1
    Rated(TRAPS + "low from the failure chance", Rule(1, 1, 0), [1, 1], [], (0, 1)),
]


def refused_or_accepted(entry):
    """The limits of n, r and the weights' total, which each of the three calls keeps."""
    yield entry("n 65", Rule(1, 64, 0), 65, [], Refusal(2))
    for kind in (6, 7):
        for n in MANY:
            yield entry(f"kind {kind}, r = n = {n}", Rule(kind, 2, n), n, [], ACCEPTED)
            # document 02, request 03: "the example that refuses r = n + 1 now holds for kind 7"; r is at most 64
            refused = kind == 7 or n == MOST_FANS
            yield entry(f"kind {kind}, r = n + 1 = {n + 1}", Rule(kind, 2, n + 1), n, [], Refusal(6) if refused else ACCEPTED)
    yield entry("weights adding to 120", Rule(2, 120, 0), 2, [100, 20], ACCEPTED)
    yield entry("weights adding to 121", Rule(2, 120, 0), 2, [100, 21], Refusal(5))


COUNTS = [
    *COUNTED_EXAMPLES,
    Count(RUN_ONLY, Rule(1, 64, 0), 64, [], {32: 1832624140942590534, 64: 0}),
    *refused_or_accepted(lambda what, rule, n, weights, printed: Count(f"{RUN_ONLY}: {what}", rule, n, weights, printed)),
]

FIGURES = [
    *table_1(),
    *equations_2_to_7(),
    *RATED_TRAPS,
    *RATED_EXAMPLES,
    *refused_or_accepted(lambda what, rule, n, weights, printed: Rated(f"{RUN_ONLY}: {what}", rule, [HALF] * n, weights, printed)),
    *table_4(),
    *windows_table(),
]

VERDICTS = [
    *JUDGED_EXAMPLES,
    *refused_or_accepted(lambda what, rule, n, weights, printed: Judged(f"{RUN_ONLY}: {what}", rule, n, 0, weights, printed)),
]

# document 01, 'Deck file and printing': the file in hex, and what decklist prints of it
DECK_FILE = bytes.fromhex(
    "01 00 00 00 03 00 03 00 14 00 00 00 20 00 00 00 26 00 00 00"
    + " 00 00 00 20" * 3 + " 00" * 6
    + "01 00 02 00 00 00 01 00 03 00 04 00 02 00 00 00 01 00 03 00 04 00 04 00 00 00 01 00 03 00")
DECK_LINES = """deck 3 systems 3
system 1 low 536870912 high 536870912
system 2 low 671088640 high 671088640
system 3 refused 6
"""
