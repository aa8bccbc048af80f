"""The shared libraries: where they are found, and their calls with the types that C has."""

from __future__ import annotations

import ctypes
import os
import subprocess
from collections.abc import Iterator
from functools import lru_cache
from pathlib import Path
from typing import Any

SHIP, OFFICE = "foambeetle", "foambeetle_office"
MAJOR = 1  # of the version that the libraries' names carry
FOLDER = "FOAMBEETLE_LIBRARY"  # in the environment: the folder that has the libraries
INSTALLED = "foambeetle", "python", "foambeetle"  # where `make install` puts this package below the libraries' folder

NUMBER, LENGTH, FILE = ctypes.c_uint64, ctypes.c_size_t, ctypes.c_char_p
PARTS, DOUBLES = ctypes.POINTER(ctypes.c_int64), ctypes.POINTER(ctypes.c_double)
BYTES, WORDS, NUMBERS, LONGS = (ctypes.POINTER(kind) for kind in (ctypes.c_uint8, ctypes.c_uint16, ctypes.c_uint32, ctypes.c_uint64))

# The parameters of each call, as its header declares it; every answer is a 64-bit number.
CALLS: dict[str, dict[str, list[Any]]] = {
    SHIP: {
        "foambeetle_rate": [FILE, LENGTH, NUMBER],
        "foambeetle_worth": [FILE, LENGTH, NUMBER, NUMBER, PARTS],
        "foambeetle_gain": [FILE, LENGTH, NUMBER, NUMBER, NUMBER, PARTS],
        "foambeetle_unit": [FILE, LENGTH],
    },
    OFFICE: {
        "foambeetle_write": [NUMBER, NUMBERS, LENGTH, WORDS, LENGTH, BYTES, LENGTH, NUMBERS, LENGTH, WORDS, LENGTH, BYTES, LENGTH],
        "foambeetle_chance": [FILE, LENGTH, NUMBER, DOUBLES],
        "foambeetle_chance_between": [FILE, LENGTH, NUMBER, DOUBLES],
        "foambeetle_rate_doubles": [NUMBER, NUMBER, NUMBER, LONGS, LENGTH, NUMBER, NUMBER, DOUBLES, LENGTH, WORDS, LENGTH],
    },
}


class NotFound(ImportError):
    """A library, or a call of it, that is not there."""


def by_pkg_config(name: str) -> Path | None:
    """The folder that pkg-config names, if it is there and knows the library."""
    try:
        said = subprocess.run(["pkg-config", "--variable=libdir", name], capture_output=True, text=True, check=True)
    except (OSError, subprocess.CalledProcessError):
        return None
    return Path(said.stdout.strip()) if said.stdout.strip() else None


def places(name: str) -> Iterator[Path]:
    """Where the library may be, the best place first; last its bare name, for the loader to look up."""
    file = f"lib{name}.so.{MAJOR}"
    if os.environ.get(FOLDER):
        yield Path(os.environ[FOLDER]) / file
        return
    here = Path(__file__).resolve().parent
    if here.parts[-len(INSTALLED):] == INSTALLED:
        yield here.parents[len(INSTALLED) - 1] / file
    if folder := by_pkg_config(name):
        yield folder / file
    yield Path(file)


@lru_cache(maxsize=None)
def library(name: str) -> ctypes.CDLL:
    """The library, found once."""
    tried = []
    for place in places(name):
        try:
            return ctypes.CDLL(str(place))
        except OSError as error:
            tried.append(f"{place}: {error}")
    raise NotFound(f"lib{name} cannot be loaded. Set {FOLDER} to the folder that has lib{name}.so.{MAJOR}: target/lib after `make lib`, PREFIX/lib after "
                   f"`make install`. It is for x86-64. Tried: {'; '.join(tried)}")


@lru_cache(maxsize=None)
def call(name: str) -> Any:
    """A call by its name, with the types of its parameters and of its answer."""
    home = next(library for library, calls in CALLS.items() if name in calls)
    try:
        found = getattr(library(home), name)
    except AttributeError:
        raise NotFound(f"lib{home} has no {name}: it is older than this package. Install both from one version.") from None
    found.argtypes, found.restype = CALLS[home][name], ctypes.c_uint64
    return found
