"""The libraries' calls, their answers taken apart."""

from __future__ import annotations

import ctypes
from collections.abc import Iterable, Sequence
from operator import index
from typing import TYPE_CHECKING, Any

from .figures import Chance, Difference, Range
from .libraries import call
from .refusals import Refused

if TYPE_CHECKING:
    from .deck import Deck

UNIT = 2 ** 30  # of version 1, and of ratings asked in doubles
LONGEST_FILE = 812
HALF_WORD = 2 ** 32
NO_SUCH_SYSTEM = 14


def fitting(number: int, bits: int, what: str) -> int:
    """The number, where C has room for it; ctypes would cut it."""
    if not 0 <= index(number) < 2 ** bits:
        raise ValueError(f"{what} {number} is not from 0 to 2^{bits} - 1")
    return index(number)


def array(kind: Any, numbers: Iterable[int], what: str) -> tuple[Any, int]:
    """A list as C has it, and its length."""
    listed = [fitting(number, 8 * ctypes.sizeof(kind), what) for number in numbers]
    return (kind * len(listed))(*listed), len(listed)


def halves(answer: int) -> tuple[int, int]:
    """The two numbers of a packed answer; raises its refusal."""
    high, low = divmod(answer, HALF_WORD)
    if high == HALF_WORD - 1:
        raise Refused(low)
    return high, low


def see(refusal: int) -> None:
    """Raises a refusal, where the answer is one."""
    if refusal:
        raise Refused(refusal)


def of_file(file: bytes) -> tuple[bytes, int]:
    """A file's bytes as C has them, and their length."""
    data = file if isinstance(file, bytes) else bytes(memoryview(file))
    return data, len(data)


def see_sound(file: bytes) -> None:
    """Raises the refusal of a file that is not sound: no file has a system 0, so a sound one is refused 14 for it."""
    try:
        halves(call("foambeetle_rate")(*of_file(file), 0))
    except Refused as refused:
        if refused.number != NO_SUCH_SYSTEM:
            raise


def parts(file: bytes) -> int:
    """The unit of a file that is sound."""
    return call("foambeetle_unit")(*of_file(file))


def unit(file: bytes) -> int:
    """What the figures of a deck file are parts of: 2^30 in version 1, 10^9 in versions 2 and 3."""
    see_sound(file)
    return parts(file)


def rate(file: bytes, system: int) -> Range:
    """The figures of a system of a deck file: the exact chance that it lasts lies between low / unit and high / unit."""
    low, high = halves(call("foambeetle_rate")(*of_file(file), fitting(system, 64, "system")))
    return Range(low, high, parts(file))


def worth(file: bytes, system: int, fan: int) -> Difference:
    """What a fan is worth to a system: its chance with that fan sure to work, less its chance with it sure to fail."""
    ends = (ctypes.c_int64 * 2)()
    see(call("foambeetle_worth")(*of_file(file), fitting(system, 64, "system"), fitting(fan, 64, "fan"), ends))
    return Difference(*ends, parts(file))


def gain(file: bytes, system: int, fan: int, survival: int) -> Difference:
    """What a spare in a fan's place gives a system: its chance with that survival number for the fan, less its chance as it is. `NotFound` where the library
    is from before this call."""
    ends = (ctypes.c_int64 * 2)()
    asked = fitting(system, 64, "system"), fitting(fan, 64, "fan"), fitting(survival, 32, "survival number")
    see(call("foambeetle_gain")(*of_file(file), *asked, ends))
    return Difference(*ends, parts(file))


def told(name: str, file: bytes, system: int) -> Chance:
    """The two doubles of a call for a chance."""
    ends = (ctypes.c_double * 2)()
    see(call(name)(*of_file(file), fitting(system, 64, "system"), ends))
    return Chance(*ends)


def chance(file: bytes, system: int) -> Chance:
    """The chance of a system of a version 1 deck file: low and high divided by 2^30, exactly. Another version is refused 11."""
    return told("foambeetle_chance", file, system)


def chance_between(file: bytes, system: int) -> Chance:
    """The same of a deck file of any version: the double nearest below low / unit, and the one nearest above high / unit."""
    return told("foambeetle_chance_between", file, system)


def write(deck: Deck) -> bytes:
    """The bytes of a deck's file. Rules and survival numbers are not judged: the ship refuses them, system by system."""
    room = (ctypes.c_uint8 * LONGEST_FILE)()
    lists = (
        *array(ctypes.c_uint32, deck.survival, "survival number"), *array(ctypes.c_uint16, deck.weights, "weight"),
        *array(ctypes.c_uint8, deck.boards, "board"), *array(ctypes.c_uint32, deck.switchboards, "board's survival number"),
        *array(ctypes.c_uint16, (number for system in deck.systems for number in system), "system's number"),
    )
    above, length = halves(call("foambeetle_write")(fitting(deck.version, 64, "version"), *lists, room, LONGEST_FILE))
    return bytes(room[:above * HALF_WORD + length])


def rate_doubles(kind: int, first: int, second: int, survival: Sequence[float], *, more: Sequence[int] = (), a: int = 1, b: int | None = None,
                 weights: Sequence[int] = ()) -> Range:
    """Rates the fans from a to b, all of them where neither is given, by their chances to last as floats, in parts of 2^30. `more` has the further pairs
    of kind 8, two numbers each; `weights` are read under kind 2 alone."""
    chances = [float(number) for number in survival]
    last = len(chances) if b is None else fitting(b, 64, "b")
    rule = fitting(kind, 64, "kind"), fitting(first, 64, "first"), fitting(second, 64, "second")
    lists = *array(ctypes.c_uint64, more, "further number"), fitting(a, 64, "a"), last, (ctypes.c_double * len(chances))(*chances), len(chances)
    answer = call("foambeetle_rate_doubles")(*rule, *lists, *array(ctypes.c_uint16, weights, "weight"))
    return Range(*halves(answer), UNIT)
