"""The refusals by their numbers."""

from __future__ import annotations

# What each number says; man/foambeetle.7 says more of each.
WORDS: dict[int, str] = {
    1: "no such kind",
    2: "no fans, or more than 64",
    3: "the stretch is not on the deck",
    4: "a survival number above the unit",
    5: "weights missing or heavier than 120 in all",
    6: "the rule's numbers are out of range",
    7: "the working table is too short",
    8: "the count table's room is too short",
    9: "a failed fan that is not there",
    10: "the file is too short",
    11: "the file is of no known version, or its zero field is not 0",
    12: "the file has no systems or too many, or part of one",
    13: "the file is laid out wrongly",
    14: "no such system",
    15: "kind 8 has no count table",
    16: "the room is too short",
    17: "the fan is not in the system's stretch",
    18: "a double that is no chance",
    19: "kind 3 off the grid of 2^30",
    20: "no boards, or more than 4, in a file that has boards",
    21: "a fan on a board that is not there",
    22: "a file to be mended ends before its last system is whole",
}


class Refused(Exception):
    """What was asked is refused: `number` is the library's, `words` what it says."""

    def __init__(self, number: int, words: str | None = None) -> None:
        self.number = number
        self.words = WORDS.get(number, "a number that this package does not know") if words is None else words
        super().__init__(number, self.words)

    def __str__(self) -> str:
        return f"refused {self.number}: {self.words}"
