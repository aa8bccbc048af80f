"""The season report against the second program, byte for byte: streams of deck files on standard input, named ones for each sentence of request 13, 120
random ones, and about 10,000 files; the same in pieces of any size; and the count of decks that a terminal is shown meanwhile."""

import os
import random
import subprocess
import sys

from second.model.season import season_output
from second.samples.season import many_files, named, random_streams, single_fan
from tests.common import compare, held, linked, mapped, on_terminal, printed

STREAMS = 120
IN_PIECES = 12
TOLD = 100  # decks are told by the hundred
SHOWN = 250


def through(words, streams):
    return mapped(lambda data: printed(words, data).decode(), streams)


def in_pieces(words, rng, data):
    """What season prints where the stream comes by a few bytes at a time."""
    with subprocess.Popen(words, stdin=subprocess.PIPE, stdout=subprocess.PIPE) as program:
        at = 0
        while at < len(data):
            end = at + rng.choice((1, 2, 7, 19, 20, 21, 300))
            try:
                os.write(program.stdin.fileno(), data[at:end])
            except BrokenPipeError:  # a refused file ends the reading
                break
            at = end
        program.stdin.close()
        return program.stdout.read().decode()


def decks_shown():
    """A count of decks read, by the hundred, wiped at the end; and nothing at all where standard error is no terminal."""
    data, words = single_fan(1, 1) * SHOWN, linked("season")
    printed, shown = on_terminal(words, data)
    told = [f"decks {count}" for count in range(TOLD, SHOWN + 1, TOLD)]
    done = subprocess.run(words, input=data, capture_output=True, check=True)
    return (
        printed == season_output(data) == done.stdout.decode()
        and [part for part in shown.split("\r") if part.strip()] == told
        and shown.endswith(" \r")
        and not done.stderr
    )


def main():
    words, rng = linked("season"), random.Random(13)
    streams = [*named(), *random_streams(2026, STREAMS)]
    good = compare("streams through season", through(words, streams), [season_output(data) for data in streams])
    many = list(many_files())[::2]  # the program takes more than a second for each
    good &= compare("streams of about 10,000 files", through(words, many), [season_output(data) for data in many])
    pieces = [stream for stream in streams if stream][-IN_PIECES:]
    good &= compare("streams in pieces", [in_pieces(words, rng, data) for data in pieces], [season_output(data) for data in pieces])
    return 0 if good & held(decks_shown) else 1


if __name__ == "__main__":
    sys.exit(main())
