"""The documents' numbers by name, and what is asked and answered: rules, systems, boards, decks, refusals."""

from typing import NamedTuple

UNIT = 2 ** 30  # document 01, 'What is rated': S
# document 02, request 08: "parts per 1,000,000,000. Version 2 of the deck file has that as its unit; version 1 keeps 2^30"; request 11: "Version 3 of the
# file, in version 2's unit"
UNITS = {1: UNIT, 2: 10 ** 9, 3: 10 ** 9}
MOST_FANS = 64  # document 01, 'Refusal numbers', row 2
MOST_WEIGHT = 120  # document 01, 'The seven verdicts': "their total at most 120"
TABLE_CELLS = 7800  # document 01, 'Refusal numbers', row 7
MOST_SYSTEMS = 32  # document 01, 'Refusal numbers', row 12
HEADER_BYTES = 20  # document 01, 'Deck file and printing'
BOARDS_VERSION = 3  # document 02, request 11: "Version 3 of the file"
BOARDS_HEADER_BYTES = 28  # document 02, request 11: "the 28-byte header"
MOST_BOARDS = 4  # document 02, request 11: "a deck has g boards, 1 to 4"
SYSTEM_NUMBERS = 5  # document 01, 'Deck file and printing': "kind, first, second, a, b"
SEVEN_KINDS = range(1, 8)  # document 01, 'The seven verdicts'
PAIRS_KIND = 8  # document 02, request 05: "Add kind 8"
KINDS = (*SEVEN_KINDS, PAIRS_KIND)  # document 02, request 05: "1 for kinds not 1..8"
NO_KIND = KINDS[-1] + 1  # the first that is refused so
LONGEST_WINDOW = 10  # document 02, request 05: "1 <= k <= r <= 10"
MOST_PAIRS = 4  # document 02, request 05: "one to four pairs (k, r)"
WORKS = "works"
DEAD = "dead"
ASKED_AGAIN = 1024  # how many answers are kept of what is asked again and again


class Rule(NamedTuple):
    """The rule's three numbers, and those of kind 8's further pairs, which the calls take beside it and no deck file carries."""

    kind: int
    first: int
    second: int
    more: tuple = ()

    @property
    def numbers(self):
        return self.kind, self.first, self.second

    @property
    def pairs(self):
        # document 02, request 05: "one to four pairs (k, r)"; the first is (first, second)
        every = (self.first, self.second, *self.more)
        return list(zip(every[::2], every[1::2]))


class Refusal(NamedTuple):
    number: int


class Fails(NamedTuple):
    """A failing verdict, with the place that it names."""

    place: int


class System(NamedTuple):
    rule: Rule
    a: int
    b: int


class Boards(NamedTuple):
    """The fans' board numbers, 0 for none, and the boards' own survival numbers."""

    of_fans: list
    survivals: list


NO_BOARDS = Boards([], [])


class Deck(NamedTuple):
    survivals: list
    weights: list
    systems: list
    version: int = 1
    boards: Boards = NO_BOARDS
