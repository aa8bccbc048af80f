"""A deck as the office types it and as a deck file carries it."""

from __future__ import annotations

import struct
from collections.abc import Sequence
from dataclasses import dataclass, fields
from typing import NamedTuple

from . import calls

BOARDS_VERSION = 3
SYSTEM_BYTES = 10


class System(NamedTuple):
    """A rule and its stretch: the numbers of `kind`, and the first and last fan."""

    kind: int
    first: int
    second: int
    a: int
    b: int


@dataclass(frozen=True)
class Deck:
    """What a deck file holds. Survival numbers are parts of 2^30 in version 1 and of 10^9 in versions 2 and 3; version 3 has boards too: for each fan
    the number of its board, 0 for none, and each board's own survival number. Any sequence will do; it is kept as a tuple."""

    version: int
    survival: Sequence[int]
    weights: Sequence[int]
    systems: Sequence[System]
    boards: Sequence[int] = ()
    switchboards: Sequence[int] = ()

    def __post_init__(self) -> None:
        for field in fields(self)[1:]:
            object.__setattr__(self, field.name, tuple(getattr(self, field.name)))

    @classmethod
    def parse(cls, file: bytes) -> Deck:
        """The deck of a file. The proved reader says whether the file is sound, and `Refused` has its number where it is not."""
        calls.see_sound(file)
        version, _, n, m, survival, weights, systems = struct.unpack_from("<4H3I", file)
        g, boards = struct.unpack_from("<2I", file, 20) if version == BOARDS_VERSION else (0, 0)
        return cls(
            version,
            struct.unpack_from(f"<{n}I", file, survival),
            struct.unpack_from(f"<{n}H", file, weights),
            tuple(System(*struct.unpack_from("<5H", file, systems + SYSTEM_BYTES * s)) for s in range(m)),
            struct.unpack_from(f"<{n}B", file, boards) if g else (),
            struct.unpack_from(f"<{g}I", file, boards + n) if g else (),
        )

    def dump(self) -> bytes:
        """The deck file's bytes, by the proved writer; those of a parsed file are the file's own."""
        return calls.write(self)
