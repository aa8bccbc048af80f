"""What make install puts below a folder: programs that start without the kit, libraries that a program finds by pkg-config, a Python package that finds
them beside it and by pkg-config, man pages. make uninstall takes all of it away again."""

import os
import platform
import re
import shutil
import sys
from pathlib import Path

from tests.common import (
    EVERY_PROGRAM, LIBRARIES, MAKER, MENDER, NEEDED, OFFICE, PAGER, PROGRAMS, SAMPLES, SHIP, WRITER, build, compare_example, compare_samples, compare_written,
    decks, held, make, rated_lines, room, root, run, sample, started, texts, tools,
)

STAGE = room / "stage"
PREFIX = "/usr"
PLACE = STAGE / PREFIX[1:]
# what has pkg-config read what was installed there
STAGED = {"PKG_CONFIG_LIBDIR": str(PLACE / "lib/pkgconfig"), "PKG_CONFIG_SYSROOT_DIR": str(STAGE), "PKG_CONFIG_ALLOW_SYSTEM_CFLAGS": "1",
          "PKG_CONFIG_ALLOW_SYSTEM_LIBS": "1"}


def installed():
    return sorted(str(file.relative_to(STAGE)) for file in STAGE.rglob("*") if not file.is_dir())


def alone(program):
    """A program asks for no loader, and so for no C library of the machine's."""
    readelf = run([tools()[0], "-print-prog-name=readelf"]).decode().strip()
    return b"INTERP" not in run([readelf, "--program-headers", "--wide", program])


def pkg_config_version():
    """The pkg-config files name the version of the file VERSION."""
    line = f"Version: {(root / 'VERSION').read_text().strip()}"
    return all(line in (PLACE / f"lib/pkgconfig/{library}.pc").read_text().splitlines() for library in LIBRARIES)


def pages_there():
    """Every program and every library has its man page, and so has every function of the headers, by a link to a page that names it."""
    names = {name for library in LIBRARIES for name in re.findall(r"(foambeetle_\w+)\(", (root / f"include/{library}.h").read_text()) if not name.endswith("_lent")}
    pages = [*(f"man1/{program}.1" for program in EVERY_PROGRAM), *(f"man3/{page}.3" for page in (*LIBRARIES, *names)), "man7/foambeetle.7"]
    missing = [page for page in pages if not (PLACE / "share/man" / page).exists() or not about(page)]
    print(f"man pages: {len(pages)}, missing or about something else: {missing}")
    return not missing


def about(page):
    """Whether a page's NAME has what the page is called, also where the page is a link."""
    text = (PLACE / "share/man" / page).read_text()
    text = (PLACE / "share/man" / text.split()[1]).read_text() if text.startswith(".so ") else text
    name = page.partition("/")[2].rpartition(".")[0]
    return name in re.findall(r"\w+", text.partition(".SH NAME\n")[2].partition(".SH ")[0]) or f".TH {name.upper()} " in text


def library_words(library):
    """The words that pkg-config gives for what was installed."""
    return run(["pkg-config", "--cflags", "--libs", library], env={**os.environ, **STAGED}).decode().split()


def installed_sample(name, library):
    """A C sample built with those words, and the words that start it."""
    return [*tools()[1], build(sample(name), f"{name}_installed", "-static", *library_words(library))]


def samples_agree():
    """The C samples, built with those words."""
    if shutil.which("pkg-config") is None:
        print("skipped: programs built by pkg-config, which is not there")
        return True
    good = compare_example("the installed library", installed_sample(WRITER, OFFICE))
    for name, output in SAMPLES.items():
        good &= compare_samples(f"the installed library, by {name}", installed_sample(name, SHIP), output, by_name=True)
    return good


def package_agrees():
    """The installed Python package, which finds the libraries beside it; and the one of the sources, which finds them by pkg-config."""
    if platform.machine() != "x86_64":
        print(f"skipped: the installed Python package, since this Python is for {platform.machine()}")
        return True
    plain = {name: value for name, value in os.environ.items() if name != "FOAMBEETLE_LIBRARY"}
    ways = {"the installed Python package": {"PYTHONPATH": str(PLACE / "lib/foambeetle/python")}}
    if shutil.which("pkg-config"):
        ways["the Python package by pkg-config"] = {"PYTHONPATH": str(root / "python"), "PYTHONDONTWRITEBYTECODE": "1", **STAGED}
    return all([compare_samples(what, [sys.executable, root / "samples/rate.py"], rated_lines, by_name=True, env={**plain, **more}) for what, more in ways.items()])


def spoilt():
    """The sample decks, the first without its last byte, the others with more and more behind them."""
    for place, deck in enumerate(decks()):
        yield deck.read_bytes()[:-1] + b"\0" * place


def main():
    shutil.rmtree(STAGE, ignore_errors=True)
    make("install", f"DESTDIR={STAGE}", f"PREFIX={PREFIX}")
    print(f"installed: {' '.join(installed())}")
    good = held(pages_there, pkg_config_version) and all(alone(program) for program in (PLACE / "bin").iterdir())
    for program, output in PROGRAMS.items():
        good &= compare_samples(f"the installed {program}", [*tools()[1], PLACE / "bin" / program, *NEEDED.get(program, ())], output)
    for what, program, inputs in (("samples cut and run on", MENDER, spoilt()), ("the samples' texts", MAKER, map(Path.read_bytes, texts()))):
        good &= compare_written(what, program, [*tools()[1], PLACE / "bin" / program], list(inputs))
    good &= compare_samples(f"the installed {PAGER}", [*tools()[1], PLACE / "bin" / PAGER], lambda data: run(started(PAGER), data).decode())
    good &= samples_agree() & package_agrees()
    make("uninstall", f"DESTDIR={STAGE}", f"PREFIX={PREFIX}")
    print(f"left by uninstall: {installed()}")
    return 0 if good and not installed() else 1


if __name__ == "__main__":
    sys.exit(main())
