"""The Python package against the second program: 300 random files of every version, sound and damaged, by every call for a file; 1,200 decks written;
600 lists of doubles. Its refusals have words for every number, and its calls have their headers' types. It reports a number that C has no room for and a
library that is missing. pip installs it from its folder."""

import ctypes
import importlib.util
import os
import platform
import random
import re
import shutil
import subprocess
import sys
from fractions import Fraction

from second.model.deck_file import read_deck, write_deck
from second.model.doubles import chance, chance_between, double, planned
from second.model.loading import rate, unit_of_file, worth_of_file
from second.model.spares import gain_of_file
from second.model.terms import BOARDS_VERSION, UNIT, UNITS, Boards, Refusal
from second.samples.doubles import random_plan
from second.samples.files import random_files
from tests.common import LIBRARIES, SHIP, compare, decks, held, prototypes, ready, room, root, run
from tests.office import cases
from tests.program import percent

FOLDER, PACKAGE = "FOAMBEETLE_LIBRARY", root / "python"
FILES, PLANS = 300, 600
MILLION = 10 ** 6
ASKED = """import foambeetle
with open("{deck}", "rb") as file:
    print(foambeetle.rate(file.read(), 2).percent)
"""
ANSWER = "99.661881% to 99.661884%\n"  # of samples/hold1.deck
POINTERS = {"uint8_t": ctypes.c_uint8, "uint16_t": ctypes.c_uint16, "uint32_t": ctypes.c_uint32, "uint64_t": ctypes.c_uint64, "int64_t": ctypes.c_int64,
            "double": ctypes.c_double}


def loaded():
    """The package of the sources, whatever is installed."""
    spec = importlib.util.spec_from_file_location("package", PACKAGE / "foambeetle/__init__.py", submodule_search_locations=[str(PACKAGE / "foambeetle")])
    package = sys.modules["package"] = importlib.util.module_from_spec(spec)
    spec.loader.exec_module(package)
    return package


sys.dont_write_bytecode = True
os.environ[FOLDER] = str(root / "target/lib")
package = loaded()


def answer(call, *words, **more):
    """What a call of the package answers, or the number that it is refused by."""
    try:
        return call(*words, **more)
    except package.Refused as refused:
        return Refusal(refused.number)


def files():
    return [b"", *(deck.read_bytes() for deck in decks()), *random_files(71, FILES)]


def asked():
    """Files, and systems that they have and have not."""
    for data in files():
        yield from ((data, system) for system in (0, 1, 2, 3, 32, 33, 2 ** 64 - 1))


def ranged(data, system):
    number = rate(data, system)
    low, high = divmod(number, 2 ** 32)
    return Refusal(high) if low == 2 ** 32 - 1 else (low, high, unit_of_file(data))


def doubled(call):
    """A chance of the second program's as floats."""
    def both(data, system):
        ends = call(data, system)
        return ends if isinstance(ends, Refusal) else tuple(map(float, ends))
    return both


def weighed(data, system, fan):
    ends = worth_of_file(data, system, fan)
    return ends if isinstance(ends, Refusal) else (*ends, unit_of_file(data))


def gained(data, system, fan, p):
    ends = gain_of_file(data, system, fan, p)
    return ends if isinstance(ends, Refusal) else (*ends, unit_of_file(data))


def files_agree():
    """Ratings, both kinds of chances, units, worths and gains."""
    every = list(asked())
    good = compare("ratings from Python", [answer(package.rate, *one) for one in every], [ranged(*one) for one in every])
    good &= compare("chances from Python", [answer(package.chance, *one) for one in every], [doubled(chance)(*one) for one in every])
    good &= compare("chances between two doubles from Python", [answer(package.chance_between, *one) for one in every],
                    [doubled(chance_between)(*one) for one in every])
    units = [Refusal(rate(data, 0) % 2 ** 32) if unit_of_file(data) == 0 else unit_of_file(data) for data in files()]
    good &= compare("units from Python", [answer(package.unit, data) for data in files()], units)
    fans = [(data, system, fan) for data, system in every[::3] for fan in (0, 1, 2, 64)]
    good &= compare("worths from Python", [answer(package.worth, *one) for one in fans], [weighed(*one) for one in fans])
    spares = [(*one, p) for one in fans for p in (0, UNIT // 3, UNITS[2], UNIT, UNIT + 1)]
    return good & compare("gains from Python", [answer(package.gain, *one) for one in spares], [gained(*one) for one in spares])


def parsed(data):
    """A file's deck by the second program, as the package has it."""
    deck = read_deck(data)
    if isinstance(deck, Refusal):
        return deck
    boards = deck.boards if deck.version == BOARDS_VERSION else Boards((), ())
    systems = tuple((*system.rule.numbers, system.a, system.b) for system in deck.systems)
    return package.Deck(deck.version, deck.survivals, deck.weights, systems, boards.of_fans, boards.survivals)


def decks_agree():
    """Files parsed, and dumped again; decks written, those of tests/office.py with things wrong among them."""
    every = files()
    good = compare("decks parsed", [answer(package.Deck.parse, data) for data in every], [parsed(data) for data in every])
    sound = [data for data in every if not isinstance(read_deck(data), Refusal)]
    good &= compare("decks dumped again", [package.Deck.parse(data).dump() for data in sound], sound)
    typed = [one for one, length in cases()][::5] + [one for one, length in cases()][4::5]
    wanted = [write_deck(*one, b"\0" * 812) for one in typed]
    got = [answer(package.write, package.Deck(version, survivals, weights, [numbers], *boards)) for version, survivals, weights, boards, numbers in typed]
    return good & compare("decks written from Python", got, [said if isinstance(said, Refusal) else after[:said] for said, after in wanted])


def doubles_agree():
    rng = random.Random(72)
    plans = [random_plan(rng) for _ in range(PLANS)]
    got = [answer(package.rate_doubles, *rule.numbers, [double(bits) for bits in doubles], more=rule.more, a=a, b=b, weights=weights)
           for rule, a, b, doubles, weights in plans]
    wanted = [planned(*plan) for plan in plans]
    good = compare("ratings asked in doubles from Python", got, [one if isinstance(one, Refusal) else (*one, UNIT) for one in wanted])
    return good and package.rate_doubles(1, 1, 0, [0.5]) == (UNIT // 2, UNIT // 2, UNIT)


def views_right():
    """Fractions and percents of ranges, against plain arithmetic."""
    rng = random.Random(73)
    good = True
    for unit in UNITS.values():
        for low in (0, 1, unit - 1, unit, *(rng.randint(0, unit) for _ in range(200))):
            high = rng.choice((low, min(low + rng.randint(0, 64), unit)))
            range_, ends = package.Range(low, high, unit), (Fraction(low, unit), Fraction(high, unit))
            text = f"{percent(low * 100 * MILLION // unit)} to {percent(-(-high * 100 * MILLION // unit))}"
            good &= range_.fractions == ends and range_.percent == text and package.Difference(-low, high, unit).fractions == (-ends[0], ends[1])
    return good


def refusals_named():
    """Every number of rules/src/refusal.rt has its words, and man/foambeetle.7 has each number with the same words."""
    numbers = {int(number) for number in re.findall(r"^pub const \w+: u64 = (\d+);$", (root / "crates/rules/src/refusal.rt").read_text(), re.M)}
    page = (root / "man/foambeetle.7").read_text()
    listed = {number for number in numbers if f".IP {number} 4\n{package.WORDS[number]}" in page}
    refused = package.Refused(6)
    return numbers == set(package.WORDS) == listed and str(refused) == "refused 6: " + refused.words


def in_ctypes(parameter, name):
    """A parameter of a header's prototype as the package must declare it."""
    words = parameter.removeprefix("const ").split()
    if words[1].startswith("*"):
        return ctypes.c_char_p if words[1] == "*file" else ctypes.POINTER(POINTERS[words[0]])
    return ctypes.c_size_t if words[0] == "size_t" else POINTERS[words[0]]


def declared_as_headers():
    """Every call of both headers is declared with their types; what the package has beside them is a call that the library may not have yet."""
    calls = importlib.import_module("package.libraries").CALLS
    if importlib.import_module("package.libraries").MAJOR != int((root / "VERSION").read_text().split(".")[0]):
        return False
    for library in LIBRARIES:
        for name, (said, parameters) in prototypes((root / f"include/{library}.h").read_text()).items():
            if said != "uint64_t" or calls[library].get(name) != [in_ctypes(one, name) for one in parameters]:
                print(f"{name} is declared otherwise than in include/{library}.h")
                return False
    return all(package.libraries.call(name).restype is ctypes.c_uint64 for names in calls.values() for name in names)


def raised(kind, call, *words):
    """What an error says; nothing where there is none."""
    try:
        call(*words)
    except kind as error:
        return str(error)
    return ""


def faults_told():
    """Numbers that C would cut; a gain where the library has none, or has one."""
    data = (root / "samples/hold1.deck").read_bytes()
    wrong = ((package.rate, data, 2 ** 64), (package.rate, data, -1), (package.worth, data, 1, 2 ** 64), (package.gain, data, 1, 1, 2 ** 32),
             (package.write, package.Deck(1, [2 ** 32], [0], [(1, 1, 0, 1, 1)])), (package.write, package.Deck(1, [1], [2 ** 16], [(1, 1, 0, 1, 1)])),
             (package.write, package.Deck(3, [1], [1], [(1, 1, 0, 1, 1)], [256], [1])))
    good = all("is not from 0 to 2^" in raised(ValueError, *one) for one in wrong) and raised(TypeError, package.rate, data, 1.0) != ""
    there = "foambeetle_gain" in prototypes((root / f"include/{SHIP}.h").read_text())
    return good and (there or "has no foambeetle_gain" in raised(package.NotFound, package.gain, data, 1, 1, 1))


def started(path, library):
    """A Python that has the package on this path, and the library's folder in its environment; what it prints, and what it says."""
    own = {name: value for name, value in os.environ.items() if name not in (FOLDER, "PYTHONPATH")}
    own.update({"PYTHONPATH": str(path), "PYTHONDONTWRITEBYTECODE": "1", **({FOLDER: str(library)} if library else {})})
    words = [sys.executable, "-c", ASKED.format(deck=root / "samples/hold1.deck")]
    done = subprocess.run(words, capture_output=True, text=True, env=own, cwd=room)
    return done.stdout, done.stderr


def readme_true():
    """The program of python/README.md prints what its last line says, in a folder that has the deck."""
    program = "".join(line.removeprefix("    ") for line in (PACKAGE / "README.md").read_text().splitlines(True) if line.startswith("    "))
    said = program.rstrip().rpartition("# ")[2]
    own = {**os.environ, "PYTHONPATH": str(PACKAGE), "PYTHONDONTWRITEBYTECODE": "1"}
    return run([sys.executable, "-c", program], env=own, cwd=root / "samples").decode() == f"{said}\n"


def missing_told():
    """A library that is not there is told, with what to do."""
    out, said = started(PACKAGE, room / "no-such-folder")
    return not out and "NotFound" in said and f"Set {FOLDER} to the folder that has libfoambeetle.so.1" in said


def pip_installs():
    """From its folder, without a network, setuptools or a wheel of anybody's; nothing is left behind in the folder."""
    if importlib.util.find_spec("pip") is None:
        print("skipped: the package by pip, since there is no pip")
        return True
    place, before = room / "pip", sorted(PACKAGE.rglob("*"))
    shutil.rmtree(place, ignore_errors=True)
    run([sys.executable, "-m", "pip", "install", "--quiet", "--no-index", "--disable-pip-version-check", "--root-user-action=ignore", "--target", place / "site",
         PACKAGE], env={**os.environ, "PYTHONDONTWRITEBYTECODE": "1"})
    if sorted(PACKAGE.rglob("*")) != before:
        return False
    return started(place / "site", root / "target/lib")[0] == ANSWER


def main():
    if platform.machine() != "x86_64":
        print(f"skipped: the Python package, since this Python is for {platform.machine()}")
        return 0
    ready("lib")
    room.mkdir(parents=True, exist_ok=True)
    good = files_agree() & decks_agree() & doubles_agree()
    return 0 if good & held(views_right, refusals_named, declared_as_headers, faults_told, readme_true, missing_told, pip_installs) else 1


if __name__ == "__main__":
    sys.exit(main())
