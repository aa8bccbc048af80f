"""What the tests share: the project's folder, its programs and C samples, running a command, building by make, the C compiler for x86-64, a header's
calls."""

import os
import pty
import re
import subprocess
from concurrent.futures import ThreadPoolExecutor
from functools import lru_cache
from pathlib import Path

from second.model.loading import decklist_output, deckworth_output
from second.model.mending import deckmend_output
from second.model.season import season_output
from second.model.spares import deckspare_output
from second.model.states import deckstate_output
from second.model.typed import deckmake_output, deckshow_output

root = Path(__file__).resolve().parent.parent
room = root / "target/tests"
STRICT = ("-Wall", "-Wextra", "-Werror", "-O1")
BUILT = "FOAMBEETLE_BUILT"  # in the environment where tests/others.py has built all that the tests start


def rated_lines(data):
    """What decklist prints of a sound file, less its first line."""
    return decklist_output(data).split("\n", 1)[1]


def judged_lines(data, *words):
    """What deckstate prints where its words are right."""
    return deckstate_output(data, words)[0]


# The libraries, for the ship and for the office.
SHIP, OFFICE = LIBRARIES = "foambeetle", "foambeetle_office"
# The programs that print what deck files hold, and the C samples of the ship's calls, each with what the second program prints for it; the programs that write
# one, with what it writes and says of it; the one that draws one; all programs; the sample of the office's, which writes EXAMPLE.
SHOWER, MENDER, MAKER, PAGER = "deckshow", "deckmend", "deckmake", "deckpage"
PROGRAMS = {"decklist": decklist_output, "deckworth": deckworth_output, "deckspare": deckspare_output, "season": season_output, "deckstate": judged_lines,
            SHOWER: deckshow_output}
NEEDED = {"deckspare": ("1.0",)}  # the words that a program cannot do without: a spare that cannot fail
WRITING = {MENDER: deckmend_output, MAKER: deckmake_output}
EVERY_PROGRAM = (*PROGRAMS, *WRITING, PAGER)
SAMPLES = {"rate": rated_lines, "worth": deckworth_output}
WRITER, EXAMPLE = "write", "example.deck"


def run(words, data=b"", statuses=(0,), **more):
    """What a command writes to standard output; it ends with one of these statuses."""
    done = subprocess.run([str(word) for word in words], input=data, stdout=subprocess.PIPE, **more)
    if done.returncode not in statuses:
        raise subprocess.CalledProcessError(done.returncode, done.args, done.stdout)
    return done.stdout


def make(*words):
    """make as a person starts it, also below another make."""
    plain = {name: value for name, value in os.environ.items() if name not in ("MAKEFLAGS", "MAKELEVEL", "MFLAGS")}
    return run(["make", "--no-print-directory", "-C", root, *words], env=plain)


def ready(*targets):
    """These as make builds them; two tests that run at once build nothing."""
    if BUILT not in os.environ:
        make(*targets)


def prove():
    """The programs, proved and linked."""
    ready(*(f"target/programs/{program}" for program in EVERY_PROGRAM))


def started(program, *words):
    """The words that start a program that make has linked."""
    return [root / "tests/run-program", program, *NEEDED.get(program, ()), *words]


# The exit status: what was asked for was written; the file was refused, or the text has faults; something was wrong with the words, the input or the output.
DONE, REFUSED, FAILED = 0, 1, 2


def printed(words, data, **more):
    """What a program that prints what a file holds prints of it; its status says whether the file was refused."""
    done = subprocess.run([str(word) for word in words], input=data, stdout=subprocess.PIPE, **more)
    refused = done.stdout.startswith(b"file refused ") or re.search(rb"^files refused 1\b", done.stdout, re.M)
    if done.returncode != (REFUSED if refused else DONE):
        raise subprocess.CalledProcessError(done.returncode, done.args, done.stdout)
    return done.stdout


def on_terminal(words, data):
    """What a program prints, and what it shows on a terminal."""
    mine, theirs = pty.openpty()
    with subprocess.Popen(words, stdin=subprocess.PIPE, stdout=subprocess.PIPE, stderr=theirs) as program:
        printed, _ = program.communicate(data)
    os.close(theirs)
    shown = b""
    while True:
        try:
            piece = os.read(mine, 4096)
        except OSError:  # the terminal's end, as Linux tells it
            piece = b""
        if not piece:
            break
        shown += piece
    os.close(mine)
    return printed.decode(), shown.decode()


@lru_cache(maxsize=None)
def tools():
    """The compiler's name, and the words that start a static program that it built."""
    compiler, emulator = run([root / "tests/tools.sh"]).decode().split("\n")[:2]
    return compiler, [emulator] if emulator else []


def plus():
    """The compiler for C++ beside the one for C."""
    return tools()[0].removesuffix("gcc") + "g++"


def build(source, program, *words, compiler=None, standard="-std=c99"):
    """A C program for x86-64, below target/tests."""
    room.mkdir(parents=True, exist_ok=True)
    run([compiler or tools()[0], standard, *STRICT, "-o", room / program, source, *words])
    return room / program


def static(source, program, library=SHIP):
    """The same, linked with a library's archive into one file; the words that start it."""
    folder = root / "target/lib"
    return [*tools()[1], build(source, program, "-static", f"-I{folder}", folder / f"lib{library}.a")]


def decks():
    return sorted((root / "samples").glob("*.deck"))


def texts():
    """What the sample decks are made from."""
    return sorted((root / "samples").glob("*.txt"))


def sample(name):
    return root / f"samples/{name}.c"


def compare_samples(what, words, output, by_name=False, **more):
    """The sample decks through a program, each on its standard input, and where the program opens it itself by its name too."""
    got = [printed([*words, *([deck] if by_name else [])], deck.read_bytes(), **more).decode() for deck in decks()]
    return compare(f"samples through {what}", got, [once(output, deck.read_bytes()) for deck in decks()])


@lru_cache(maxsize=None)
def once(output, data):
    """What the second program prints of a file that several programs are held to."""
    return output(data)


def linked(program):
    """The words that start a program that make has linked into one file, which takes less than half the time of starting what rt built."""
    file = f"target/programs/{program}"
    ready(file)
    return [*tools()[1], root / file, *NEEDED.get(program, ())]


def prototypes(header):
    """The functions that a header's text declares and does not define: the type of the answer, and the parameters in their order."""
    text = re.sub(r"/\*.*?\*/", "", header, flags=re.S).replace('extern "C" {', "")
    found = re.findall(r"(\w+) (foambeetle_\w+)\(([^()]*)\);", re.sub(r"\{[^{}]*\}", "", text))
    return {name: (answer, [" ".join(one.split()) for one in parameters.split(",")]) for answer, name, parameters in found}


def mapped(function, inputs):
    """The function of each input, some at a time."""
    with ThreadPoolExecutor() as pool:
        return list(pool.map(function, inputs))


def written(words, data):
    """What a program that writes a file writes to standard output and to standard error; its status says whether there is a file."""
    done = subprocess.run([str(word) for word in words], input=data, capture_output=True)
    if done.returncode != (DONE if done.stdout else REFUSED):
        raise subprocess.CalledProcessError(done.returncode, done.args, done.stdout, done.stderr)
    return done.stdout, done.stderr.decode()


def compare_written(what, program, words, inputs):
    """Inputs through a program that writes a file, a process each."""
    got = mapped(lambda data: written(words, data), inputs)
    return compare(f"{what} through {program}", got, [WRITING[program](data) for data in inputs])


def fed(words, data, piece):
    """The same where the input comes by so many bytes at a time."""
    with subprocess.Popen(words, stdin=subprocess.PIPE, stdout=subprocess.PIPE, stderr=subprocess.PIPE, bufsize=0) as process:
        for at in range(0, len(data), piece):
            process.stdin.write(data[at:at + piece])
        out, said = process.communicate()
    return out, said.decode()


def compare_example(what, words):
    """The office's sample, which writes the scope document's deck."""
    return compare(f"the example written by {what}", [run(words)], [(root / "samples" / EXAMPLE).read_bytes()])


def reported(wrong, said):
    """What is wrong, a line each, and what was looked at; the exit status."""
    for line in wrong:
        print(line)
    print(said)
    return 1 if wrong else 0


def held(*checks, of=()):
    """Whether each check, named as its function is, holds of these names, or at all."""
    good = True
    for check in checks:
        holds = check(*of)
        print(f"{' '.join((*of, check.__name__.replace('_', ' ')))}: {'yes' if holds else 'NO'}")
        good &= holds
    return good


def compare(what, got, wanted):
    """Counts what agrees, and shows the first that does not."""
    for place, (one, other) in enumerate(zip(got, wanted, strict=True)):
        if one != other:
            print(f"{what} {place}: got {one!r}, wanted {other!r}")
            return False
    print(f"{what}: {len(wanted)} agree with the second program")
    return True
