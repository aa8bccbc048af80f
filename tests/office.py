"""The office's writer against the second program, byte for byte.

600 random decks of every version are each written into a room that just suffices, one a byte longer and one a byte shorter, and with one or two things wrong by
turns, so that the order of the refusals shows. A C program linked with libfoambeetle_office.a makes the calls, with guard pages on either side of what it
lends. Versions without boards get lists of boards beside them. What is written reads back as the deck that was typed.
"""

import random
import struct
import sys

from second.model.boards import boards_read
from second.model.deck_file import layout, listed_systems, read_deck, system_numbers, write_deck
from second.model.loading import packed
from second.model.terms import BOARDS_VERSION, Boards, Deck, Refusal
from second.samples.files import random_deck
from second.samples.lists import unread_boards
from tests.common import OFFICE, compare, ready, root, run, static

DECKS = 600
PAINT = b"\xa5"  # of tests/pages.h
FIVE = [1, 1, 0, 1, 1]
WORD = 2 ** 16


def at_random(rng, deck):
    """A deck's version and lists: as they are, or with numbers that a rating would refuse, since a writer judges none but the fans' board numbers."""
    n, numbers = len(deck.survivals), system_numbers(deck.systems)
    boards = deck.boards if deck.version == BOARDS_VERSION else unread_boards(rng, n)
    if rng.random() < 0.5:
        return deck.version, deck.survivals, deck.weights, boards, numbers
    survivals, own = ([rng.randrange(2 ** 32) for _ in some] for some in (deck.survivals, boards.survivals))
    weights, numbers = ([rng.randrange(WORD) for _ in some] for some in (deck.weights, numbers))
    return deck.version, survivals, weights, Boards(boards.of_fans, own), numbers


def wrong_version(rng, version, survivals, weights, boards, numbers):
    return rng.choice((0, 4, WORD + version, 2 ** 32 + version, 2 ** 63 + version, 2 ** 64 - 1)), survivals, weights, boards, numbers


def wrong_fans(rng, version, survivals, weights, boards, numbers):
    return version, rng.choice(([], survivals[:1] * 65, survivals[:1] * 70)), weights, boards, numbers


def wrong_fans_and_weights(rng, version, survivals, weights, boards, numbers):
    n = rng.choice((0, 65, 1000, WORD + len(survivals)))
    return version, survivals[:1] * n, weights[:1] * n, boards._replace(of_fans=boards.of_fans[:1] * n), numbers


def wrong_weights(rng, version, survivals, weights, boards, numbers):
    return version, survivals, rng.choice((weights[1:], weights + [1], [], weights[:1] * (WORD + len(weights)))), boards, numbers


def wrong_systems(rng, version, survivals, weights, boards, numbers):
    return version, survivals, weights, boards, rng.choice(([], FIVE * 33, FIVE * 64, FIVE[:1] * (5 * WORD + 5)))


def part_systems(rng, version, survivals, weights, boards, numbers):
    left = rng.choice(([1], FIVE[:4]))
    return version, survivals, weights, boards, rng.choice((FIVE[:4], FIVE + [1], numbers + left, FIVE * 32 + left))


def wrong_number_of_boards(rng, version, survivals, weights, boards, numbers):
    # document 02, request 11: "20, g outside 1..4"
    return version, survivals, weights, boards._replace(survivals=[7] * rng.choice((0, 5, 256 + 1, WORD + 2))), numbers


def wrong_board(rng, version, survivals, weights, boards, numbers):
    # document 02, request 11: "21, a fan's board number above g"
    place, above = rng.randrange(max(len(boards.of_fans), 1)), min(len(boards.survivals) + 1, 255)
    fans = [rng.choice((above, 255)) if at == place else board for at, board in enumerate(boards.of_fans)]
    return version, survivals, weights, boards._replace(of_fans=fans), numbers


def wrong_board_list(rng, version, survivals, weights, boards, numbers):
    # document 02, request 11: "or a board list not n long"
    fans = boards.of_fans
    return version, survivals, weights, boards._replace(of_fans=rng.choice((fans[1:], fans + [0], [], [0] * (WORD + len(survivals))))), numbers


DAMAGES = (wrong_version, wrong_fans, wrong_fans_and_weights, wrong_weights, wrong_systems, part_systems, wrong_number_of_boards, wrong_board,
           wrong_board_list)


def damaged(rng, typed):
    """One thing wrong, or two."""
    for damage in rng.sample(DAMAGES, rng.choice((1, 2))):
        typed = damage(rng, *typed)
    return typed


def cases():
    """What is typed, and the length of the room."""
    rng = random.Random(41)
    for _ in range(DECKS):
        typed = version, survivals, _, boards, numbers = at_random(rng, random_deck(rng))
        length = layout(version, len(survivals), len(boards.survivals), len(numbers) // len(FIVE)).length
        for more in (0, 1, -1, rng.randint(-length, 100)):
            yield typed, length + more
        yield damaged(rng, typed), rng.choice((0, length - 1, length, 9999))


def to_write(typed, length):
    """A case as tests/office_test.c reads it."""
    version, survivals, weights, boards, numbers = typed
    lists = survivals, weights, *boards, numbers
    n, w, b, g, s = map(len, lists)
    return struct.pack(f"<Q6I{n}I{w}H{b}B{g}I{s}H", version, n, w, b, g, s, length, *(number for numbers in lists for number in numbers))


def told(typed, length):
    """The line that tests/office_test.c prints."""
    answer, room = write_deck(*typed, PAINT * length)
    return f"{packed(answer) if isinstance(answer, Refusal) else answer:x} {room.hex()}"


def back(line):
    """The deck that the second program's reader finds in what was written."""
    length, room = line.split(" ")
    return read_deck(bytes.fromhex(room)[:int(length, 16)])


def refused(line):
    return line.startswith("ffffffff")


def compare_read(asked, said):
    """Every file that was written, read: the lists that were typed, so that writing them again is the same call."""
    pairs = [(typed, back(line)) for (typed, _), line in zip(asked, said) if not refused(line)]
    wanted = [Deck(survivals, weights, listed_systems(numbers), version, boards_read(version, boards))
              for (version, survivals, weights, boards, numbers), _ in pairs]
    return compare("decks read back", [deck for _, deck in pairs], wanted)


def seen(said):
    """Every refusal was met."""
    numbers = {int(line.split(" ")[0][8:], 16) for line in said if refused(line)}
    print(f"refusals met: {sorted(numbers)}")
    return numbers == {2, 5, 11, 12, 16, 20, 21}


def main():
    ready("lib")
    asked = list(cases())
    said = run(static(root / "tests/office_test.c", "office_test", OFFICE), b"".join(to_write(*case) for case in asked)).decode().splitlines()
    good = compare("decks through the office's call", said, [told(*case) for case in asked])
    return 0 if good & compare_read(asked, said) & seen(said) else 1


if __name__ == "__main__":
    sys.exit(main())
