"""The programs as a person starts them: the words and files they take, their exit status, decklist's percents against plain arithmetic over the second program's
answers, and what they say and leave behind where something cannot be opened, read or written."""

import os
import re
import shutil
import subprocess
import sys
import tempfile
from pathlib import Path

from second.model.deck_file import deck_bytes
from second.model.loading import decklist_output
from second.model.terms import UNITS, Boards, Deck, Rule, System
from second.samples.files import random_files
from tests.common import (
    DONE, EVERY_PROGRAM, FAILED, MAKER, NEEDED, REFUSED, compare, decks, held, linked, mapped, printed, prove, room, root, run, started, tools,
)

SAMPLE = root / "samples/hold1.deck"
TEXT = root / "samples/hold1.txt"  # what deckmake reads
FILES = 60
MILLION = 10 ** 6
NEAR = (0, 1, 10, 11, 107, 108, 1073, 1074, 10737419)  # percents that begin or end in zeros, or just round
# The words that have a program work, beside none at all; every program takes --help and --version.
WORDS = {"decklist": ["--percent", "--words"], "deckworth": ["--words"], "deckspare": [], "deckmend": [], "season": [], "deckstate": [], "deckpage": [], "deckshow": [], MAKER: []}
OUT = ("deckmend", "deckpage", "deckshow", MAKER)  # these take -o
FANS, SEVERAL = "deckstate", "season"  # its operands are fans, and its file is -f's; any number of operands
WRONG = (["--percents"], ["--percen"], ["-h"], ["-x" * 2500], ["--help=x"])
OLD = b"what was there before"
STRACE = "strace"


def taken(program):
    """The file that a program reads in these tests."""
    return TEXT if program == MAKER else SAMPLE


def by_name(program, file):
    """The words by which a program is told a file's name."""
    return ["-f", file] if program == FANS else [file]


def outcome(program, *words, streams=None):
    """A program's status, and what it writes to standard output and to standard error, its streams set by the shell."""
    streams = f'< "{taken(program)}"' if streams is None else streams
    command = ["sh", "-c", f'exec "$0" "$@" {streams}', *map(str, started(program, *words))]
    done = subprocess.run(command, stdin=subprocess.DEVNULL, capture_output=True)
    return done.returncode, done.stdout, done.stderr.decode()


def percent(millionths):
    return f"{millionths // MILLION}.{millionths % MILLION:06d}%"


def with_percents(data):
    """The lines of a file with each low rounded down and each high rounded up, in percent of its own unit."""
    unit = UNITS.get(int.from_bytes(data[:2], "little"))  # where there is none, no line has figures

    def more(match):
        low, high = (int(number) * 100 * MILLION for number in match.groups())
        return f"{match[0]} {percent(low // unit)} to {percent(-(-high // unit))}"
    return re.sub(r"low (\d+) high (\d+)$", more, decklist_output(data), flags=re.M)


def near(version):
    """A fan for each figure, and a system for each fan, so that low and high are that figure; its board, where the version has them, is sure to work."""
    unit = UNITS[version]
    fans = [*NEAR, unit // 2, unit - 1, unit]
    systems = [System(Rule(1, 1, 0), place, place) for place in range(1, len(fans) + 1)]
    return deck_bytes(Deck(fans, [0] * len(fans), systems, version, Boards([1] * len(fans), [unit])))


def percents():
    inputs = [deck.read_bytes() for deck in decks()] + [*map(near, UNITS), b""] + list(random_files(31, FILES))
    words = [*linked("decklist"), "--percent"]
    got = mapped(lambda data: printed(words, data).decode(), inputs)
    return compare("inputs through decklist --percent", got, [with_percents(data) for data in inputs])


def told(program, *words, what="", **streams):
    """Status 2, nothing on standard output, and one line on standard error that names the program."""
    status, shown, said = outcome(program, *words, **streams)
    return status == FAILED and not shown and re.fullmatch(f"{program}: {what}.*\n", said) is not None


def usage(program):
    """What --help prints, by the man page's synopsis: its words in their order, what is to be put in for in capitals."""
    synopsis = re.search(r"^\.SH SYNOPSIS\n(.*?)^\.SH ", (root / f"man/{program}.1").read_text(), re.M | re.S)[1]
    forms = []
    for form in synopsis.split(".br\n"):
        words = []
        for font, line in re.findall(r"^\.([A-Z]+) (.*)$", form, re.M):
            parts = [quoted or plain for quoted, plain in re.findall(r'"([^"]*)"|(\S+)', re.sub(r"\\f.", "", line))]
            words.append(("" if len(font) > 1 else " ").join(part.upper() if one == "I" else part for one, part in zip(font * len(parts), parts)))
        forms.append(re.sub(" +", " ", " ".join(words)).replace("\\-", "-"))
    return "usage: " + "\n       ".join(forms) + "\n"


def words_answered(program):
    """Help, which is the man page's synopsis, and version without a look at the input, which cannot be read here; a wrong word is told in a line."""
    folder = f'< "{root}"'
    version = (root / "VERSION").read_text().strip()
    status, shown, said = outcome(program, "--help", streams=folder)
    good = (status, shown.decode(), said) == (DONE, usage(program), "")
    good &= outcome(program, "--version", streams=folder) == (DONE, f"{program} {version}\n".encode(), "")
    good &= outcome(program, "--help", "--nothing", streams=folder)[0] == DONE
    wrong = [*WRONG, *([] if "--percent" in WORDS[program] else [["--percent"]])]
    wrong += [["-o"]] if program in OUT else [["-f"]] if program == FANS else [["-o", "x"]]
    wrong += [] if program in (FANS, SEVERAL) else [[taken(program), taken(program)]]
    return good and all(told(program, *words) for words in wrong)


def files_by_name(program):
    """A file by its name, by - and behind -- is what it is on standard input; options may stand before it or behind it."""
    file = taken(program)
    plain = outcome(program)
    good = plain[0] == DONE and outcome(program, *by_name(program, file), streams="<&-") == plain
    good &= outcome(program, *by_name(program, "-")) == plain
    good &= outcome(program, *(["-f", file, "--"] if program == FANS else ["--", file]), streams="<&-") == plain
    for word in WORDS[program]:
        good &= outcome(program, word, file, streams="<&-") == outcome(program, file, word, streams="<&-") == outcome(program, word)
    if program == SEVERAL:
        good &= same_as_cat(file)
    return good


def same_as_cat(file):
    """Files one after another are one stream, with -- among them too."""
    stream = file.read_bytes() * 2
    wanted = run(started(SEVERAL), stream)
    return run(started(SEVERAL, file, file)) == run(started(SEVERAL, file, "--", file)) == run(started(SEVERAL, "--", file, file)) == wanted


def failures_told(program):
    """What is missing, a folder, what may not be read, a closed input; an output that is full or closed; and the status alone where standard error is full."""
    file, missing = taken(program), room / "not there"
    good = told(program, *by_name(program, missing), what=re.escape(f"{missing}: No such file"))
    good &= told(program, *by_name(program, root), what=re.escape(f"{root}: "))
    if program == SEVERAL:
        good &= told(program, file, missing, what=re.escape(f"{missing}: "))
    for words in ([], *([word] for word in WORDS[program])):
        good &= told(program, *words, what="standard input: ", streams=f'< "{root}"')
        good &= told(program, *words, what="standard input: ", streams="<&-")
        good &= told(program, *words, what="standard output: ", streams=f'< "{file}" > /dev/full')
    good &= told(program, "--version", what="standard output: ", streams="> /dev/full")
    good &= told(program, "--help", what="standard output: ", streams=">&-")
    return good and outcome(program, "--nothing", streams=f'< "{file}" 2> /dev/full') == (FAILED, b"", "")


def permission_told(program):
    """A file that may not be read is told by its name. root may read every file, and so is nobody here."""
    nobody = ["setpriv", "--reuid=65534", "--regid=65534", "--clear-groups"] if os.geteuid() == 0 else []
    if nobody and not shutil.which(nobody[0]):
        print(f"skipped: a file that may not be read, for which there is no {nobody[0]} here")
        return True
    with tempfile.TemporaryDirectory() as folder:
        os.chmod(folder, 0o711)
        file, copy = Path(folder) / "closed", Path(folder) / program
        file.write_bytes(taken(program).read_bytes())
        file.chmod(0)
        shutil.copy(root / f"target/programs/{program}", copy)
        copy.chmod(0o755)
        words = [*nobody, *tools()[1], copy, *NEEDED.get(program, ()), *by_name(program, file)]
        done = subprocess.run([str(word) for word in words], stdin=subprocess.DEVNULL, capture_output=True)
    return (done.returncode, done.stdout, done.stderr.decode()) == (FAILED, b"", f"{program}: {file}: Permission denied\n")


def refusals_by_status(program):
    """A refused file, or a text with a fault, has status 1 and leaves OUT as it was."""
    room.mkdir(parents=True, exist_ok=True)
    bad, out = room / f"{program} bad", room / f"{program} out"
    bad.write_bytes(b"fan nothing\n" if program == MAKER else SAMPLE.read_bytes()[:30])
    good = outcome(program, *by_name(program, bad))[0] == REFUSED
    if program in OUT:
        out.write_bytes(OLD)
        good &= outcome(program, "-o", out, bad)[0] == REFUSED and out.read_bytes() == OLD
    return good


def beside(out):
    """What lies beside a file, under names that begin with its own."""
    return sorted(one.name for one in out.parent.iterdir() if one.name.startswith(out.name))


def out_whole_or_old(program):
    """-o writes what standard output would get, in a file of the usual mode, over the input too; where it cannot be written the old one stays."""
    if program not in OUT:
        return True
    wanted, out = outcome(program)[1], room / f"{program} out"
    out.write_bytes(OLD)
    good = outcome(program, "-o", out, taken(program), streams="<&-")[:2] == (DONE, b"") and out.read_bytes() == wanted and beside(out) == [out.name]
    mask = os.umask(0)
    os.umask(mask)
    good &= out.stat().st_mode & 0o777 == 0o666 & ~mask
    shutil.copy(taken(program), out)
    good &= outcome(program, "-o", out, out)[0] == DONE and out.read_bytes() == wanted
    good &= outcome(program, "-o", "-")[1] == wanted and outcome(program, "-o", "/dev/null")[:2] == (DONE, b"")
    good &= told(program, "-o", room / "no folder/out", what=re.escape(str(room))) and told(program, "-o", "/dev/full", what="/dev/full: ")
    return good and told(program, "-o", root, what=re.escape(str(root))) and not list(root.parent.glob(f"{root.name}.part*"))


def calls(program, words, log):
    """How often a program makes each of the calls that may fail, once its words are heard."""
    subprocess.run([STRACE, "-f", "-o", log, "-e", "trace=read,write,openat,open,rename,fsync,close", *words], stdin=open(taken(program)), capture_output=True)
    made = re.findall(r"^\d+ +(\w+)\(", log.read_text(), re.M)
    return {call: made.count(call) for call in dict.fromkeys(made)}


def each_call_failed(program):
    """Each read, write, opening, syncing and renaming is failed once: status 2 and a line, OUT the old one, and nothing left beside it; one that a signal
    interrupts is tried again. A closing that fails changes nothing: what was written is on its disk before."""
    if tools()[1] or not shutil.which(STRACE):
        print(f"skipped: calls failed one by one, for which there is no {STRACE} here")
        return True
    good, out, log = True, room / f"{program} out", room / f"{program} calls"
    words = list(map(str, [*linked(program), *(["-o", out] if program in OUT else [])]))
    wanted = outcome(program)[1]
    for call, times in calls(program, words, log).items():
        for when in range(1, times + 1):
            for error in ("EIO", *(["EINTR"] if call in ("read", "write") else [])):
                out.write_bytes(OLD)
                inject = [STRACE, "-f", "-o", log, "-e", f"inject={call}:error={error}:when={when}", *words]
                done = subprocess.run(inject, stdin=open(taken(program)), capture_output=True, timeout=60)
                whole = out.read_bytes() == wanted if program in OUT else done.stdout == wanted
                old = not (program in OUT) or out.read_bytes() == OLD
                failed = done.returncode == FAILED and old and (program in OUT or done.stdout != wanted) and call != "close"
                fine = done.returncode == DONE and whole
                right = (fine if error == "EINTR" else failed or fine) and beside(out) == [out.name]
                if not right:
                    print(f"{program}: {call} {when} {error}: status {done.returncode}, said {done.stderr!r}")
                good &= right
    return good


def main():
    prove()
    if not shutil.which(STRACE) and not tools()[1]:
        subprocess.run(["sh", "-c", "{ apt-get update && apt-get install -y --no-install-recommends strace; } >&2 || true"], stdout=subprocess.DEVNULL,
                       stderr=subprocess.DEVNULL)
    good = percents()
    for program in EVERY_PROGRAM:
        good &= held(words_answered, files_by_name, failures_told, permission_told, refusals_by_status, out_whole_or_old, each_call_failed, of=[program])
    return 0 if good else 1


if __name__ == "__main__":
    sys.exit(main())
