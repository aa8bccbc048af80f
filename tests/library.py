"""Each library as C programs meet it. It exports its header's calls and nothing else, and needs memcpy and memset alone. It answers in a static program, in a
position-independent one, as a shared library, from C++ and through Python's ctypes. The headers compile by every standard of C and C++ that the compiler knows,
and a null pointer with length 0 is an empty list.

Off x86-64 the programs run under the emulator. What cannot run there is skipped, and a line says so.
"""

import ctypes
import platform
import re
import shutil
import subprocess
import sys
from pathlib import Path

from second.model.deck_file import read_deck, system_numbers, write_deck
from second.model.doubles import bits_of, chance, chance_between, planned
from second.model.loading import decklist_output, packed, rate, unit_of_file, worth_of_file
from second.model.spares import gain_of_file
from second.model.terms import NO_BOARDS, UNIT, UNITS, Boards, Refusal, Rule
from tests.common import (
    LIBRARIES, OFFICE, SAMPLES, SHIP, WRITER, build, compare, compare_example, compare_samples, decks, plus, printed, prototypes, rated_lines, ready, room,
    root, run, sample, static, tools,
)

LIBRARY = root / "target/lib"
NEEDED = {"memcpy", "memset"}
NATIVE = platform.machine() == "x86_64"
HERE = f"-I{LIBRARY}", f"-L{LIBRARY}", f"-Wl,-rpath,{LIBRARY}"


# From the first standard of each language on; a standard that is still worked on has another name before.
C_STANDARDS = ("c89", "iso9899:199409", "c99", "c11", "c17", ("c23", "c2x"))
PLUS_STANDARDS = ("c++98", "c++03", "c++11", "c++14", "c++17", "c++20", ("c++23", "c++2b"))


def archive(library):
    return LIBRARY / f"lib{library}.a"


def shared(library):
    return LIBRARY / f"lib{library}.so"


def symbols(*words):
    """The names that nm lists."""
    nm = run([tools()[0], "-print-prog-name=nm"]).decode().strip()
    lines = run([nm, "--format=posix", *words]).decode().splitlines()
    return {line.split()[0].partition("@")[0] for line in lines if not line.endswith(":")}


def names(library):
    """What the archive and the shared library export and need, against the header."""
    exported = [symbols("--extern-only", "--defined-only", archive(library)), symbols("--dynamic", "--extern-only", "--defined-only", shared(library))]
    needed = [symbols("--undefined-only", archive(library)), symbols("--dynamic", "--undefined-only", shared(library))]
    calls = set(prototypes((LIBRARY / f"{library}.h").read_text()))
    print(f"{library}: exported {exported}, needed {needed}, the header's calls {calls}")
    return all(found == calls for found in exported) and all(found <= NEEDED for found in needed)


def starter():
    """The words that start a program over shared libraries: off x86-64 the emulator, and the loader of the compiler's own C library."""
    if NATIVE:
        return []
    loader = Path(run([tools()[0], "-print-file-name=ld-linux-x86-64.so.2"]).decode().strip())
    return [*tools()[1], loader, "--library-path", f"{loader.parent}:{LIBRARY}"]


def built(name, library):
    """A C sample, built each way: what to call it, and the words that start it."""
    source = sample(name)
    yield "a static program", static(source, f"{name}_static", library)
    pie = build(source, f"{name}_pie", "-pie", "-fPIE", *HERE, archive(library))
    yield "a position-independent program", [*starter(), pie]
    yield "the shared library", [*starter(), build(source, f"{name}_shared", *HERE, f"-l{library}")]
    if shutil.which(plus()) is None:
        print(f"skipped: the library from C++, since there is no {plus()}")
        return
    yield "C++", [*starter(), build(source, f"{name}_plus", *HERE, f"-l{library}", compiler=plus(), standard="-std=c++17")]


def known(compiler, names):
    """The standard's name that a compiler knows, if it knows one."""
    for name in [names] if isinstance(names, str) else names:
        asked = [compiler, f"-std={name}", "-fsyntax-only", "-x", "c++" if compiler == plus() else "c", "-"]
        if subprocess.run(asked, input=b"", capture_output=True).returncode == 0:
            return f"-std={name}"
    print(f"skipped: {names}, which {compiler} does not know")
    return None


def empty_lists():
    """What tests/empty_test.c prints, by the second program: no file, no lists, then one fan and one system, with no room and with some."""
    one = [UNIT // 2], [0], NO_BOARDS, [1, 1, 0, 1, 1]
    files = ("unit", unit_of_file(b"")), ("rate", rate(b"", 1)), ("worth", worth_of_file(b"", 1, 1).number), ("gain", gain_of_file(b"", 1, 1, 1).number), ("chance", chance(b"", 1).number)
    files += ("chance_between", chance_between(b"", 1).number), ("read", 1)
    lists = [("write", write_deck(1, *typed, b"\0" * length)[0]) for typed, length in ((([], [], NO_BOARDS, []), 0), (one, 0), (one, 812))]
    rated = [("rate_doubles", packed(planned(Rule(1, 1, 0), 1, 1, chances, []))) for chances in ([], [bits_of(0.5)])]
    answers = [(call, packed(answer) if isinstance(answer, Refusal) else answer) for call, answer in (*files, *lists, *rated)]
    return "".join(f"{call} {answer:x} {answer % 2 ** 32 if answer >> 32 == 2 ** 32 - 1 else 0}\n" for call, answer in answers)


def every_standard():
    """tests/empty_test.c, by every standard that is known, as strictly as it goes."""
    wanted, got, by = empty_lists(), [], []
    for compiler, standards in ((tools()[0], C_STANDARDS), (plus(), PLUS_STANDARDS)):
        if shutil.which(compiler) is None:
            print(f"skipped: the headers by {compiler}, which is not there")
            continue
        by += [(compiler, standard) for standard in (known(compiler, names) for names in standards) if standard]
    for compiler, standard in by:
        words = "-pedantic", "-static", f"-I{LIBRARY}", archive(OFFICE), archive(SHIP)
        got.append(run([*tools()[1], build(root / "tests/empty_test.c", "empty_test", *words, compiler=compiler, standard=standard)]).decode())
    print("the headers by", *(standard for _, standard in by))
    return compare("empty lists by a null pointer, in every standard", got, [wanted] * len(by))


def lent(library):
    """Every call that takes a list has its function in the header that lends an address where the list is empty, and tests/empty_test.c calls it."""
    text, test = (LIBRARY / f"{library}.h").read_text(), (root / "tests/empty_test.c").read_text()
    calls = [name for name, (_, parameters) in prototypes(text).items() if any(one.startswith("size_t ") for one in parameters)]
    wrong = [name for name in calls if not re.search(rf"^#define {name} {name}_lent$", text, re.M) or f" {name}(" not in test]
    print(f"{library}: calls without their function for empty lists, or not called with one: {wrong}")
    return not wrong


def plus_sample():
    """The sample of C++, which lends a vector: the sample decks, and an empty file."""
    if shutil.which(plus()) is None:
        print(f"skipped: samples/rate.cc, since there is no {plus()}")
        return True
    words = [*starter(), build(root / "samples/rate.cc", "rate_cc", "-pedantic", *HERE, f"-l{SHIP}", compiler=plus(), standard="-std=c++11")]
    empty = room / "empty.deck"
    empty.write_bytes(b"")
    good = compare("an empty vector by rate.cc", [printed([*words, empty], b"").decode()], [decklist_output(b"")])
    return good & compare_samples("C++, by rate.cc", words, rated_lines, by_name=True)


def rated_by_ctypes(library, data, system):
    call = library.foambeetle_rate
    call.argtypes, call.restype = [ctypes.c_char_p, ctypes.c_size_t, ctypes.c_uint64], ctypes.c_uint64
    return call(data, len(data), system)


def unit_by_ctypes(library, data):
    call = library.foambeetle_unit
    call.argtypes, call.restype = [ctypes.c_char_p, ctypes.c_size_t], ctypes.c_uint64
    return call(data, len(data))


def ends_by_ctypes(call, data, *numbers):
    """The two ends of a worth or a gain, or the refusal; a refusal must leave the ends as they were."""
    pair, before = ctypes.c_int64 * 2, (2 ** 62, -2 ** 62)
    ends = pair(*before)
    call.argtypes, call.restype = [ctypes.c_char_p, ctypes.c_size_t, *[ctypes.c_uint64] * len(numbers), pair], ctypes.c_uint64
    refusal = call(data, len(data), *numbers, ends)
    return Refusal(refusal) if refusal and tuple(ends) == before else tuple(ends)


def written_by_ctypes(library, version, survivals, weights, boards, numbers, room):
    """The answer, and the room afterwards."""
    lists = ((ctypes.c_uint32, survivals), (ctypes.c_uint16, weights), (ctypes.c_uint8, boards.of_fans), (ctypes.c_uint32, boards.survivals),
             (ctypes.c_uint16, numbers), (ctypes.c_uint8, room))
    lent = [(kind * len(values))(*values) for kind, values in lists]
    call = library.foambeetle_write
    call.argtypes, call.restype = [ctypes.c_uint64, *(word for one in lent for word in (type(one), ctypes.c_size_t))], ctypes.c_uint64
    answer = call(version, *(word for one in lent for word in (one, len(one))))
    return answer, bytes(lent[-1])


def python_written():
    """The sample decks, written again in every version; of those that have no boards, each fan on a board of its own turn."""
    library = ctypes.CDLL(str(shared(OFFICE)))
    found = [read_deck(deck.read_bytes()) for deck in decks()]
    turns = [Boards([fan % 5 for fan in range(len(deck.survivals))], [7, 8, 9, 10]) for deck in found]
    typed = [(version, deck.survivals, deck.weights, boards if deck.boards == NO_BOARDS else deck.boards, system_numbers(deck.systems), b"\7" * 900)
             for deck, boards in zip(found, turns) for version in UNITS]
    return compare("decks written through ctypes", [written_by_ctypes(library, *one) for one in typed], [write_deck(*one) for one in typed])


def python_answers():
    library = ctypes.CDLL(str(shared(SHIP)))
    asked = [(deck.read_bytes(), system) for deck in decks() for system in range(len(read_deck(deck.read_bytes()).systems) + 2)]
    good = compare("answers through ctypes", [rated_by_ctypes(library, *one) for one in asked], [rate(*one) for one in asked])
    files = [b"", *(deck.read_bytes() for deck in decks())]
    good &= compare("units through ctypes", [unit_by_ctypes(library, data) for data in files], [unit_of_file(data) for data in files])
    fans = [(data, system, fan) for data, system in asked for fan in (0, 1, len(read_deck(data).survivals), 2 ** 64 - 1)]
    good &= compare("worths through ctypes", [ends_by_ctypes(library.foambeetle_worth, *one) for one in fans], [worth_of_file(*one) for one in fans])
    spares = [(*one, p) for one in fans for p in (0, unit_of_file(one[0]), unit_of_file(one[0]) + 1)]
    return good & compare("gains through ctypes", [ends_by_ctypes(library.foambeetle_gain, *one) for one in spares], [gain_of_file(*one) for one in spares])


def main():
    ready("lib")
    good = all([names(library) & lent(library) for library in LIBRARIES]) & every_standard()
    for name, output in SAMPLES.items():
        for what, words in built(name, SHIP):
            good &= compare_samples(f"{what}, by {name}", words, output, by_name=True)
    for what, words in built(WRITER, OFFICE):
        good &= compare_example(what, words)
    good &= plus_sample()
    if NATIVE:
        good &= python_answers() & python_written()
    else:
        print(f"skipped: the shared libraries through ctypes, since this Python is for {platform.machine()}")
    return 0 if good else 1


if __name__ == "__main__":
    sys.exit(main())
