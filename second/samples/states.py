"""Words to start deckstate with: right ones at random for a deck, and wrong ones."""

from second.model.deck_file import deck_bytes
from second.model.states import BOARD
from second.model.terms import BOARDS_VERSION, NO_KIND, UNITS, Boards, Deck, Rule, System

# No deck takes any of these as fans: no digits, no number, too large, too long, a range that runs backwards or nowhere, a list with a gap.
NO_NUMBERS = (
    "", "0", "00", "65", "99", "256", "257", "-1", "+1", "1.", "1 ", " 1", "2-1", "0-1", "1-", "1-65", "1-2-3", "1--2", ",", "1,", ",1", "1,,2", "1,0", "1;2", "1, 2", "one", "x", "0x1", "1e0", "--", "board1", "Board", "boar", "boards", "\n", "1\n",
    "/", ":", "1/", ":1", "18446744073709551617", "4294967297", "9999999999999999", "00000000000000001", "x" * 300, "x" * 4096, "x" * 4097, "\u0661",
)


def fan_part(rng, n):
    """A fan of n, or a range of them, now and then with zeros before the digits."""
    low, high = sorted(rng.randint(1, n) for _ in range(2))
    numbers = rng.choice(((low,), (low,), (high,), (low, high), (low, low)))
    return "-".join(str(fan).zfill(rng.choice((1, 1, 1, 2, 5, 16))) for fan in numbers)


def fan_words(rng, n):
    """Some fans of n, some of them twice: one, a range or a list of both in a word."""
    words = [rng.choice((1, 1, 1, 2, 3, 5)) for _ in range(rng.choice((0, 1, 2, 3, n // 3, n // 2, n)))]
    return [",".join(fan_part(rng, n) for _ in range(parts)) for parts in words]


def right_words(rng, deck):
    """Failed fans, and where the deck has boards some of them, among the fans."""
    words = [[word] for word in fan_words(rng, len(deck.survivals))]
    g = len(deck.boards.survivals)
    words += [[BOARD, str(rng.randint(1, g))] for _ in range(rng.choice((0, 1, 1, 2, g))) if g]
    rng.shuffle(words)
    return [word for group in words for word in group]


def wrong_words(rng, deck):
    """Right words with a wrong one put among them, or `board` where it is wrong; what follows may be right again."""
    n, g = len(deck.survivals), len(deck.boards.survivals)
    wrong = rng.choice(([rng.choice(NO_NUMBERS)], [str(n + 1)], [BOARD], [BOARD, BOARD], [BOARD, str(g + 1)], [BOARD, "0"], [BOARD, rng.choice(NO_NUMBERS)]))
    before, after = right_words(rng, deck), right_words(rng, deck)
    return [*before, *wrong, *rng.choice(([], after))]


def every_kind(version=BOARDS_VERSION):
    """Twelve fans, three on each of two boards, and every kind over fans 4 to 9 and over the whole deck, a kind outside 1 to 8 and stretches off the deck."""
    unit = UNITS[version]
    rules = (Rule(1, 2, 0), Rule(2, 4, 0), Rule(3, 1, 2), Rule(4, 2, 0), Rule(5, 2, 0), Rule(6, 2, 3), Rule(7, 2, 3), Rule(8, 2, 4))
    systems = [System(rule, *stretch) for rule in rules for stretch in ((4, 9), (1, 12))]
    refused = [System(Rule(NO_KIND, 1, 0), 1, 12), System(rules[0], 0, 3), System(rules[0], 4, 13), System(rules[3], 2, 1), System(Rule(4, 7, 0), 4, 9), System(Rule(2, 1, 0), 10, 12)]
    weights = [1, 2, 3, 0, 1, 2, 3, 0, 1, 121, 0, 0]
    return Deck([unit + 1, *[unit // 2] * 11], weights, [*systems, *refused], version, Boards([1, 1, 1, 0, 0, 2, 2, 2, 0, 0, 0, 0], [unit, unit // 3]))


def every_kind_file(version=BOARDS_VERSION):
    return deck_bytes(every_kind(version))
