"""Checks of the season report: its lines by hand, and against what decklist prints for each file by itself, read back from its words."""

import re
from collections import Counter

from second.model.deck_file import read_deck
from second.model.loading import decklist_output, unit_of_file
from second.model.season import file_end, files_of, season_output
from second.model.terms import KINDS, UNITS, Refusal
from second.samples.season import ends_early, many_files, named, no_kinds, random_streams, single_fan, ties

STREAMS = 60


def lines_of(data):
    return season_output(data).splitlines()


def nothing_read():
    # document 02, request 13: "An empty input prints all zeros"
    lines = lines_of(b"")
    yield len(lines), 3 + 3 * len(KINDS) + 1
    for line in lines:
        shown = re.sub(r"^kind \d|refused 3|\b[456]\b|unit 1\d{9}|refused 1 ", "", line)
        yield set(re.findall(r"\d+", shown)) <= {"0"}, True


def by_hand():
    """Reports that a reader can work out."""
    half = single_fan(2 ** 29, 1)
    yield lines_of(half)[:6], [
        "decks 1", "files refused 0 number 0", "waiting 0", "kind 1 answered 1 refused 3 0 4 0 5 0 6 0", "kind 1 lowest 536870912 unit 1073741824 deck 1 system 1",
        "kind 1 widths 0 unit 1073741824 widths 0 unit 1000000000"]
    # "536870912 of 2^30 and 500000000 of 10^9 are equal": the first stays
    other = single_fan(5 * 10 ** 8, 2)
    yield lines_of(half + other)[4], "kind 1 lowest 536870912 unit 1073741824 deck 1 system 1"
    yield lines_of(other + half)[4], "kind 1 lowest 500000000 unit 1000000000 deck 1 system 1"
    yield lines_of(half + single_fan(5 * 10 ** 8 - 1, 2))[4], "kind 1 lowest 499999999 unit 1000000000 deck 2 system 1"
    yield lines_of(single_fan(5 * 10 ** 8 + 1, 2) + half)[4], "kind 1 lowest 536870912 unit 1073741824 deck 2 system 1"
    yield [lines_of(data)[-1] for data in no_kinds()], ["other kinds refused 1 4"] * len(UNITS)
    # the file that is refused is counted, and its systems are not
    yield lines_of(half + b"\4" + half[1:] + half)[:4], ["decks 1", "files refused 1 number 11", "waiting 0", "kind 1 answered 1 refused 3 0 4 0 5 0 6 0"]
    yield lines_of(half + half[:-1])[:2], ["decks 1", "files refused 1 number 13"]


def ends_of_files():
    """Every sound file ends where it is cut from a stream, whatever follows it."""
    for data in (*ties(), *random_streams(131, STREAMS)):
        files, waiting = files_of(data)
        yield waiting, False
        yield b"".join(files), data[:sum(map(len, files))]
        for file in files:
            yield file_end(file + b"\7" * 40, 0) if not isinstance(read_deck(file), Refusal) else len(file), len(file)
    for data in ends_early():
        yield b"".join(files_of(data)[0]), data


def most_files():
    heads = [lines_of(data)[:3] for data in many_files()]
    yield [head[2] for head in heads], [f"waiting {waiting}" for waiting in (0, 1, 1, 1, 0, 1, 0, 0)]
    yield [head[0] for head in heads], [f"decks {decks}" for decks in (10000, 10000, 10000, 10000, 9999, 9999, 9999, 9999)]
    yield [head[1] for head in heads], [f"files refused {refused}" for refused in (*["0 number 0"] * 4, *["1 number 11"] * 2, "0 number 0", "1 number 13")]


def from_decklist():
    """The counts, the lowest and the widths out of the lines that decklist prints, file by file, compared by multiplying across."""
    for data in (*named(), *random_streams(132, STREAMS)):
        counts, widths, lowest = Counter(), Counter(), {}
        for number, file in enumerate(files_of(data)[0], 1):
            deck = read_deck(file)
            if isinstance(deck, Refusal):
                continue
            unit = unit_of_file(file)
            for system, line in zip(deck.systems, decklist_output(file).splitlines()[1:], strict=True):
                words, kind = line.split(), system.rule.kind
                if words[2] == "refused":
                    counts[kind if words[3] != "1" else 0, words[3]] += 1
                    continue
                low, high = int(words[3]), int(words[5])
                counts[kind, "answered"] += 1
                widths[kind, unit] += high - low
                if kind not in lowest or low * lowest[kind][1] < lowest[kind][0] * unit:
                    lowest[kind] = low, unit, number, int(words[1])
        lines = lines_of(data)
        for kind in KINDS:
            answers, least, sums = lines[3 * kind:3 * kind + 3]
            yield answers, f"kind {kind} answered {counts[kind, 'answered']} refused " + " ".join(f"{r} {counts[kind, str(r)]}" for r in (3, 4, 5, 6))
            yield least, "kind {} lowest {} unit {} deck {} system {}".format(kind, *lowest.get(kind, (0, 0, 0, 0)))
            yield sums, f"kind {kind} widths {widths[kind, 2 ** 30]} unit 1073741824 widths {widths[kind, 10 ** 9]} unit 1000000000"
        yield lines[-1], f"other kinds refused 1 {counts[0, '1']}"
        # no answer is left out
        yield sum(counts.values()), sum(len(deck.systems) for deck in map(read_deck, files_of(data)[0]) if not isinstance(deck, Refusal))
        yield {number for _, number in counts} <= {"answered", "1", "3", "4", "5", "6"}, True


GROUPS = nothing_read, by_hand, ends_of_files, most_files, from_decklist
