"""What the calls answer: figures in parts of a unit, and their views as fractions and percents."""

from __future__ import annotations

from fractions import Fraction
from typing import NamedTuple

MILLION = 10 ** 6


def in_percent(millionths: int) -> str:
    """So many millionths of a percent, as decklist --percent prints them."""
    return f"{millionths // MILLION}.{millionths % MILLION:06d}%"


class Range(NamedTuple):
    """The exact chance lies between low / unit and high / unit."""

    low: int
    high: int
    unit: int

    @property
    def fractions(self) -> tuple[Fraction, Fraction]:
        """Both ends as exact fractions."""
        return Fraction(self.low, self.unit), Fraction(self.high, self.unit)

    @property
    def percents(self) -> tuple[str, str]:
        """Both ends in percent with six digits, low rounded down and high rounded up, so that they enclose what the range does."""
        low, high = (end * 100 * MILLION for end in (self.low, self.high))
        return in_percent(low // self.unit), in_percent(-(-high // self.unit))

    @property
    def percent(self) -> str:
        """The same as one text, `99.661881% to 99.661884%`."""
        return " to ".join(self.percents)


class Difference(NamedTuple):
    """A worth or a gain: the exact difference of two chances lies between lower / unit and upper / unit, either of which may be negative."""

    lower: int
    upper: int
    unit: int

    @property
    def fractions(self) -> tuple[Fraction, Fraction]:
        """Both ends as exact fractions."""
        return Fraction(self.lower, self.unit), Fraction(self.upper, self.unit)


class Chance(NamedTuple):
    """The exact chance lies between two doubles."""

    low: float
    high: float

    @property
    def fractions(self) -> tuple[Fraction, Fraction]:
        """The doubles' own values."""
        return Fraction(self.low), Fraction(self.high)
