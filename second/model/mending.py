"""Mending a deck file, document 02's request 14, by its own words: the fields that the layout fixes are written over the file's own bytes."""

from typing import NamedTuple

from second.model.deck_file import boards_in, layout, number_at
from second.model.refusals import bad_board_count, bad_length, bad_version
from second.model.terms import BOARDS_HEADER_BYTES, BOARDS_VERSION, HEADER_BYTES, MOST_SYSTEMS, Refusal


class Change(NamedTuple):
    """A changed byte: its position, counted from 0, its old and its new value."""

    place: int
    old: int
    new: int


class Mended(NamedTuple):
    """What mending writes, what it lists, and how many bytes it cuts."""

    data: bytes
    changes: list
    cut: int


def laid_out(data):
    """The layout that a file's own version and counts give."""
    return layout(number_at(data, 0, 2), number_at(data, 4, 2), boards_in(data), number_at(data, 6, 2))


def mend_refusal(data):
    # document 02, request 14: "Refusals: 10, 11 for the version only, 2, 12, 20; then 22, the file ends before its last system is whole"; request 11: 10
    # "also for a version 3 file under 28 bytes, right after 11"
    if len(data) < HEADER_BYTES:
        return 10
    version = number_at(data, 0, 2)
    if bad_version(version):
        return 11
    if version == BOARDS_VERSION and len(data) < BOARDS_HEADER_BYTES:
        return 10
    if bad_length(number_at(data, 4, 2)):
        return 2
    if not 1 <= number_at(data, 6, 2) <= MOST_SYSTEMS:
        return 12
    if version == BOARDS_VERSION and bad_board_count(boards_in(data)):
        return 20
    return 22 if len(data) < laid_out(data).length else None


def fixed_fields(data):
    """Place, size and number of the header's fields that the version and the counts fix."""
    # document 02, request 14: "the offsets and the zero field that the layout fixes"
    laid = laid_out(data)
    yield from ((2, 2, 0), (8, 4, laid.survivals), (12, 4, laid.weights), (16, 4, laid.systems))
    if number_at(data, 0, 2) == BOARDS_VERSION:
        yield 24, 4, laid.boards


def mend(data):
    """What is written and told of a file, or its refusal."""
    # document 02, request 14: "cuts what follows the last system, and lists each changed byte by position with old and new value"
    number = mend_refusal(data)
    if number:
        return Refusal(number)
    length = laid_out(data).length
    new = bytearray(data[:length])
    for at, size, number in fixed_fields(data):
        new[at:at + size] = number.to_bytes(size, "little")
    changes = [Change(place, data[place], new[place]) for place in range(length) if data[place] != new[place]]
    return Mended(bytes(new), changes, len(data) - length)


def deckmend_output(data):
    """What deckmend writes to standard output and to standard error."""
    mended = mend(data)
    if isinstance(mended, Refusal):
        return b"", f"file refused {mended.number}\n"
    lines = [f"byte {change.place} was {change.old} is {change.new}\n" for change in mended.changes]
    return mended.data, "".join(lines) + f"cut {mended.cut}\n"
