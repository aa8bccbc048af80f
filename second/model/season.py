"""Document 02, request 13, "Season report": deck files one after another, and the totals of their single answers."""

from fractions import Fraction
from functools import lru_cache
from typing import NamedTuple

from second.model.deck_file import boards_in, header_refusal, layout, number_at, read_deck
from second.model.loading import rate_system
from second.model.terms import ASKED_AGAIN, BOARDS_HEADER_BYTES, BOARDS_VERSION, HEADER_BYTES, KINDS, UNITS, Refusal

MOST_FILES = 10000  # request 13: "at most 10,000 files are read"
OWN_LINE = 1  # "Systems refused as 1 have a line of their own"
NUMBERS = (3, 4, 5, 6)  # what else refuses a system of a file that is not refused


class Single(NamedTuple):
    """A single answer: of which deck and system, counted from 1, of which kind and unit; low and high, or the refusal."""

    deck: int
    system: int
    kind: int
    unit: int
    answer: object


def file_end(data, at):
    """Where the file that begins at a place of a stream ends."""
    # "A file ends where its counts say or the input does"; a header that is refused says nothing of what follows it
    header = data[at:at + HEADER_BYTES]
    if len(header) == HEADER_BYTES and number_at(header, 0, 2) == BOARDS_VERSION:
        header = data[at:at + BOARDS_HEADER_BYTES]
    if len(header) < HEADER_BYTES or header_refusal(header):
        return at + len(header)
    version, n, m = (number_at(header, place, 2) for place in (0, 4, 6))
    return min(len(data), at + layout(version, n, boards_in(header), m).length)


def files_of(data):
    """The files that are read of a stream, and whether more bytes were waiting."""
    # "A refused file is counted and ends the reading; at most 10,000 files are read, and the report says if more bytes were waiting"
    files, at = [], 0
    while at < len(data) and len(files) < MOST_FILES:
        end = file_end(data, at)
        files.append(data[at:end])
        at = end
        if isinstance(read_deck(files[-1]), Refusal):
            break
    return files, len(files) == MOST_FILES and at < len(data)


@lru_cache(maxsize=ASKED_AGAIN)
def answers_of(file):
    """The kind, the unit and the answer of each system of a sound file; a stream may have one file thousands of times."""
    deck = read_deck(file)
    return [(system.rule.kind, UNITS[deck.version], rate_system(deck, system)) for system in deck.systems]


def singles_of(files):
    for number, file in enumerate(files, 1):
        for place, answer in enumerate(answers_of(file), 1):
            yield Single(number, place, *answer)


def refused_by(singles, number):
    return sum(isinstance(one.answer, Refusal) and one.answer.number == number for one in singles)


def kind_lines(kind, singles):
    """The three lines of a kind, of its own single answers in reading order."""
    answered = [one for one in singles if not isinstance(one.answer, Refusal)]
    numbers = " ".join(f"{number} {refused_by(singles, number)}" for number in NUMBERS)
    yield f"kind {kind} answered {len(answered)} refused {numbers}"
    # "first in reading order on a tie; lows of two units compared as exact fractions": min takes the first
    least = min(answered, key=lambda one: Fraction(one.answer[0], one.unit), default=Single(0, 0, kind, 0, (0, 0)))
    yield f"kind {kind} lowest {least.answer[0]} unit {least.unit} deck {least.deck} system {least.system}"
    widths = {unit: sum(high - low for low, high in (one.answer for one in answered if one.unit == unit)) for unit in (UNITS[1], UNITS[2])}
    yield f"kind {kind} " + " ".join(f"widths {width} unit {unit}" for unit, width in widths.items())


def season_output(data):
    files, waiting = files_of(data)
    refused = [deck.number for deck in map(read_deck, files) if isinstance(deck, Refusal)]
    singles = list(singles_of(file for file in files if not isinstance(read_deck(file), Refusal)))
    lines = [f"decks {len(files) - len(refused)}", f"files refused {len(refused)} number {sum(refused)}", f"waiting {int(waiting)}"]
    for kind in KINDS:
        lines += kind_lines(kind, [one for one in singles if one.kind == kind])
    lines.append(f"other kinds refused 1 {refused_by(singles, OWN_LINE)}")
    return "".join(line + "\n" for line in lines)
