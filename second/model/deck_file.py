"""The deck file, document 01, 'Deck file and printing', in every version: its layout, its reader and its writer."""

from functools import lru_cache
from typing import NamedTuple

from second.model.boards import boards_read
from second.model.refusals import bad_board_count, bad_length, bad_version, boards_refusal
from second.model.terms import ASKED_AGAIN, BOARDS_HEADER_BYTES, BOARDS_VERSION, HEADER_BYTES, MOST_SYSTEMS, SYSTEM_NUMBERS, Boards, Deck, Refusal, Rule, System


def number_at(data, at, size):
    # document 01, 'Deck file and printing': "Little-endian"
    return int.from_bytes(data[at:at + size], "little")


class Layout(NamedTuple):
    """Where each part of a file begins, and where the file ends."""

    survivals: int
    weights: int
    boards: int
    board_survivals: int
    systems: int
    length: int

    def offsets(self, version):
        """Those that the header has, in its order."""
        # document 02, request 11: "the 28-byte header ends in g (4) and the offset of those bytes (4)"
        return [self.survivals, self.weights, self.systems, *([self.boards] if version == BOARDS_VERSION else [])]


def layout(version, n, g, m):
    # document 01, 'Deck file and printing': offsets 20, 20 + 4n, 20 + 6n, length 20 + 6n + 10m; document 02, request 11: version 3 "adds a byte per fan
    # and the boards' numbers, in that order between weights and systems (a number takes 4 bytes)"
    if version == BOARDS_VERSION:
        head = BOARDS_HEADER_BYTES
        return Layout(head, head + 4 * n, head + 6 * n, head + 7 * n, head + 7 * n + 4 * g, head + 7 * n + 4 * g + 10 * m)
    head = HEADER_BYTES
    return Layout(head, head + 4 * n, head + 6 * n, head + 6 * n, head + 6 * n, head + 6 * n + 10 * m)


def boards_in(data):
    """g, as a header has it that has it."""
    return number_at(data, HEADER_BYTES, 4) if number_at(data, 0, 2) == BOARDS_VERSION else 0


def header_refusal(data):
    # document 02, request 11: "10 also for a version 3 file under 28 bytes, right after 11", "20 .. after 12"
    version, n, m = number_at(data, 0, 2), number_at(data, 4, 2), number_at(data, 6, 2)
    if bad_version(version) or number_at(data, 2, 2) != 0:
        return 11
    if version == BOARDS_VERSION and len(data) < BOARDS_HEADER_BYTES:
        return 10
    if bad_length(n):
        return 2
    if not 1 <= m <= MOST_SYSTEMS:
        return 12
    return 20 if version == BOARDS_VERSION and bad_board_count(boards_in(data)) else None


def layout_refusal(data):
    # document 01, 'Refusal numbers', row 13; document 02, request 11: "21 .. after 13"
    version, n, m, g = number_at(data, 0, 2), number_at(data, 4, 2), number_at(data, 6, 2), boards_in(data)
    laid = layout(version, n, g, m)
    places = (8, 12, 16, *([24] if version == BOARDS_VERSION else []))
    if [number_at(data, at, 4) for at in places] != laid.offsets(version) or len(data) != laid.length:
        return 13
    return 21 if version == BOARDS_VERSION and any(board > g for board in data[laid.boards:laid.board_survivals]) else None


def file_refusal(data):
    # document 01, 'Refusal numbers': "A file is checked 10, 11, 2, 12, 13"
    if len(data) < HEADER_BYTES:
        return 10
    return header_refusal(data) or layout_refusal(data)


def system_at(data, at):
    # document 01, 'Deck file and printing': "systems of 10 bytes: kind, first, second, a, b (2 each)"
    kind, first, second, a, b = (number_at(data, at + 2 * place, 2) for place in range(5))
    return System(Rule(kind, first, second), a, b)


@lru_cache(maxsize=ASKED_AGAIN)
def read_deck(data):
    # document 01, 'Deck file and printing': "Then P (4 bytes each), weights (2 each), systems"
    number = file_refusal(data)
    if number:
        return Refusal(number)
    version, n, m, g = number_at(data, 0, 2), number_at(data, 4, 2), number_at(data, 6, 2), boards_in(data)
    laid = layout(version, n, g, m)
    return Deck(
        [number_at(data, laid.survivals + 4 * place, 4) for place in range(n)],
        [number_at(data, laid.weights + 2 * place, 2) for place in range(n)],
        [system_at(data, laid.systems + 10 * place) for place in range(m)],
        version,
        Boards(list(data[laid.boards:laid.board_survivals]), [number_at(data, laid.board_survivals + 4 * place, 4) for place in range(g)]),
    )


def deck_bytes(deck):
    # document 01, 'Deck file and printing': the header's fields in order, then the lists; document 02, request 11: the boards' "between weights and
    # systems"
    boards = boards_read(deck.version, deck.boards)
    n, m, g = len(deck.survivals), len(deck.systems), len(boards.survivals)
    laid = layout(deck.version, n, g, m)
    fields = [(deck.version, 2), (0, 2), (n, 2), (m, 2), (laid.survivals, 4), (laid.weights, 4), (laid.systems, 4)]
    fields += [(g, 4), (laid.boards, 4)] if deck.version == BOARDS_VERSION else []
    fields += [(survival, 4) for survival in deck.survivals]
    fields += [(weight, 2) for weight in deck.weights]
    fields += [(board, 1) for board in boards.of_fans] + [(survival, 4) for survival in boards.survivals]
    fields += [(number, 2) for number in system_numbers(deck.systems)]
    return b"".join(number.to_bytes(size, "little") for number, size in fields)


def system_numbers(systems):
    # document 01, 'Deck file and printing': "kind, first, second, a, b", one system after the other
    return [number for system in systems for number in (*system.rule.numbers, system.a, system.b)]


def listed_systems(numbers):
    # document 01, 'Deck file and printing': "kind, first, second, a, b"
    fives = [numbers[at:at + SYSTEM_NUMBERS] for at in range(0, len(numbers), SYSTEM_NUMBERS)]
    return [System(Rule(kind, first, second), a, b) for kind, first, second, a, b in fives]


def part_system(numbers):
    # document 02, request 01: "a part system too"
    return len(numbers) % SYSTEM_NUMBERS != 0


def write_refusal(version, survivals, weights, boards, numbers, room):
    # document 02, request 01: "Refusals: 2, weights' length not n as 5, 12 (a part system too), then 16, room too short, in that order"; request 08:
    # 11 "first where it is an input"; request 11: "with 20 and 21 before 16"
    n, m = len(survivals), len(numbers) // SYSTEM_NUMBERS
    if bad_version(version):
        return 11
    if bad_length(n):
        return 2
    if len(weights) != n:
        return 5
    if part_system(numbers) or not 1 <= m <= MOST_SYSTEMS:
        return 12
    number = boards_refusal(version, n, boards, boards.of_fans)
    return number or (16 if len(room) < layout(version, n, len(boards.survivals), m).length else None)


def write_deck(version, survivals, weights, boards, numbers, room):
    """The length or the refusal, and the room afterwards."""
    # document 02, request 01: "bytes out into lent room, whose rest stays untouched", "nothing is written on any of them"
    number = write_refusal(version, survivals, weights, boards, numbers, room)
    if number:
        return Refusal(number), room
    data = deck_bytes(Deck(survivals, weights, listed_systems(numbers), version, boards))
    return len(data), data + room[len(data):]
