"""Checks of deckmake and deckshow in the second program: texts with their decks and messages by hand, and decks there and back.

Each group yields pairs: what was found, and what it must equal.
"""

import random

from second.model.deck_file import deck_bytes, read_deck
from second.model.loading import decklist_output
from second.model.terms import BOARDS_VERSION, NO_BOARDS, UNITS, Boards, Deck, Rule, System
from second.model.typed import deckmake_output, deckshow_output, fraction, lines_of, read_text, rule_words, shown, whole, words_of
from second.samples.files import random_deck
from second.samples.published import DECK_FILE
from second.samples.typed import SOUND, layouts, other_words

DECKS = 60
DEAD = "system fails at 1 dead\n"
PLACED = "fan, fans, board or system"


def deck_of(text):
    return read_text(text.encode())


def said(text):
    """What is written for a text, and what is said of it."""
    return deckmake_output(text.encode())


def of_line(line, version=2):
    """What is said of a line between a sound version and a sound deck, and nothing where it is right."""
    rest = "board 1\nfan 1\n" if version == BOARDS_VERSION else "fan 1\n"
    data, told = said(f"version {version}\n{line}\n{rest}{DEAD}")
    lines = [one.removeprefix("line 2: ") for one in told.splitlines() if one.startswith("line ")]
    return "; ".join(lines) if lines or not data else ""


def example_typed():
    """The scope document's own deck."""
    text = "version 1\nfans 3 0.5\nsystem fails at 2 dead\nsystem fails at 2 in a row\nsystem fails at 4 in a row\n"
    yield deckmake_output(text.encode()), (DECK_FILE, "system 3 will be refused 6\n")
    yield deckshow_output(DECK_FILE), text.replace("fans 3 0.5\n", "fan 536870912\n" * 3)
    for laid_out in layouts(text.encode()):
        yield deckmake_output(laid_out)[0], DECK_FILE


def rules_typed():
    """Each rule in words, and the same by its numbers."""
    for words, rule in (
        ("fails at 3 dead", Rule(1, 3, 0)), ("fails at weight 20", Rule(2, 20, 0)), ("fails from 2 to 5 dead", Rule(3, 2, 5)),
        ("fails at 2 in a row", Rule(4, 2, 0)), ("fails at 2 in a row round", Rule(5, 2, 0)), ("fails at 2 in 4", Rule(6, 2, 4)),
        ("fails at 2 in 4 round", Rule(7, 2, 4)), ("needs 3 of any 5", Rule(8, 3, 5)),
        # any number may stand for the two, and any number be of no kind: the rating refuses them, not the text
        ("fails at 7 in 4", Rule(6, 7, 4)), ("fails at 0 in 65535 round", Rule(7, 0, 65535)), ("kind 9 first 1 second 2", Rule(9, 1, 2)),
        ("kind 0 first 0 second 0", Rule(0, 0, 0)),
        # a second number that the words have no place for
        ("kind 1 first 3 second 1", Rule(1, 3, 1)), ("kind 2 first 3 second 1", Rule(2, 3, 1)), ("kind 4 first 2 second 9", Rule(4, 2, 9)),
        ("kind 5 first 2 second 9", Rule(5, 2, 9)),
    ):
        yield rule_words(rule), words
        for stretch, typed in (("", (1, 6)), (" from 1 to 6", (1, 6)), (" from 2 to 5", (2, 5)), (" from 0 to 65535", (0, 65535)), (" from 5 to 2", (5, 2))):
            deck = deck_of(f"fans 6 7\nsystem {words}{stretch}\n")
            yield deck, Deck([7] * 6, [0] * 6, [System(rule, *typed)], 2, NO_BOARDS)
        kind, first, second = rule.numbers
        yield deck_of(f"fans 6 7\nsystem kind {kind} first {first} second {second}\n").systems, [System(rule, 1, 6)]


def fans_typed():
    """Fans by their number, their weight and their board; boards may stand behind them, and systems before them."""
    yield deck_of(f"{DEAD}fans 2 5\nfan 0.25 weight 3\n"), Deck([5, 5, 250_000_000], [0, 0, 3], [System(Rule(1, 1, 0), 1, 3)], 2, NO_BOARDS)
    yield deck_of(f"version 3\nfan 5 on 2\nfans 2 1.0 weight 9 on 1\nfan 0\nboard 0.5\nboard 7\n{DEAD}"), Deck(
        [5, 10 ** 9, 10 ** 9, 0], [0, 9, 9, 0], [System(Rule(1, 1, 0), 1, 4)], 3, Boards([2, 1, 1, 0], [500_000_000, 7]))
    # a weight of none may be said, and is not shown
    yield deck_of(f"fan 5 weight 0\n{DEAD}"), deck_of(f"fan 5\n{DEAD}")
    yield deckshow_output(deckmake_output(f"fan 5 weight 0\n{DEAD}".encode())[0]), f"version 2\nfan 5\n{DEAD}"
    yield deckshow_output(deckmake_output(f"version 3\nboard 1\nfan 5 weight 2 on 1\nfan 6\n{DEAD[:-1]} from 2 to 2\n".encode())[0]), (
        f"version 3\nboard 1\nfan 5 weight 2 on 1\nfan 6\n{DEAD[:-1]} from 2 to 2\n")
    yield deckshow_output(b""), "file refused 10\n"


def numbers_read():
    for word, value in (
        (b"0", 0), (b"007", 7), (b"65535", 65535), (b"", None), (b"-1", None), (b"1.0", None), (b"1e3", None), (b"\xb2", None),
        (b"1" + b"0" * 5000, 10 ** 5000),
    ):
        yield whole(word), value
    for word, value in (
        (b"0.0", 0), (b"1.0", 10 ** 9), (b"0.985", 985_000_000), (b"0.123456789", 123_456_789), (b"0.000000001", 1), (b"00.5", 500_000_000),
        (b"1.000000000", 10 ** 9), (b".5", None), (b"0.", None), (b".", None), (b"1", None), (b"0.1234567891", None), (b"1.000000001", None), (b"1.1", None),
        (b"2.0", None), (b"0.5.5", None), (b"0,5", None), (b"-0.5", None), (b"0.5x", None), (b"0x.5", None),
    ):
        yield fraction(word), value


def words_and_lines():
    for line, words in (
        (b"", []), (b" \t\r", []), (b"# fan", []), (b"fan 5", [b"fan", b"5"]), (b"\tfan\t\t5\r", [b"fan", b"5"]), (b"fan 5# x", [b"fan", b"5"]),
        (b"fa#n 5", [b"fa"]), (b"fan\x0b5", [b"fan\x0b5"]), (b"fan\xa05\0", [b"fan\xa05\0"]),
    ):
        yield words_of(line), words
    for text, lines in ((b"", []), (b"\n", [b""]), (b"a", [b"a"]), (b"a\n", [b"a"]), (b"a\n\nb", [b"a", b"", b"b"]), (b"\n\n", [b"", b""])):
        yield lines_of(text), lines
    for word, text in (
        (b"", "the end"), (b"fan", "fan"), (b"x" * 20, "x" * 20), (b"x" * 21, "x" * 20 + ".."), (b"a\0b\xff\x7f~!", "a?b??~!"), (b"\xc3\xa9", "??"),
    ):
        yield shown(word), text


def faults_of_lines():
    """What is wanted at each place."""
    survival, number = "parts up to 4294967295, or a decimal from 0 to 1 of at most nine digits", "a number up to 65535"
    for line, told in (
        ("x", f"x: wanted {PLACED}"), ("version 2", f"version: wanted {PLACED}"), ("fan", f"the end: wanted {survival}"), ("fan x", f"x: wanted {survival}"),
        ("fan 4294967295", ""), ("fan 4294967296", f"4294967296: wanted {survival}"), ("fan 0.1234567891", f"0.1234567891: wanted {survival}"),
        ("fan .5", f".5: wanted {survival}"), ("fan 0.", f"0.: wanted {survival}"), ("fan 1.000000001", f"1.000000001: wanted {survival}"),
        ("fan 5 x", "x: wanted weight, on or the line's end"), ("fan 5 weight", "the end: wanted a weight up to 65535"), ("fan 5 weight 65535", ""),
        ("fan 5 weight 65536", "65536: wanted a weight up to 65535"), ("fan 5 weight 1.0", "1.0: wanted a weight up to 65535"),
        ("fan 5 weight 1 x", "x: wanted on or the line's end"), ("fan 5 on 1", "on: wanted version 3, which has boards"),
        ("fan 5 weight 1 on", "on: wanted version 3, which has boards"), ("fans", "the end: wanted a number of fans from 1 to 64"),
        ("fans 0 5", "0: wanted a number of fans from 1 to 64"), ("fans 1 5", ""), ("fans 63 5", ""),
        ("fans 65 5", "65: wanted a number of fans from 1 to 64"), ("fans 2", f"the end: wanted {survival}"),
        ("board 5", "board: wanted version 3, which has boards"), ("board", "board: wanted version 3, which has boards"),
        ("system", "the end: wanted fails, needs or kind"), ("system fail", "fail: wanted fails, needs or kind"),
        ("system fails", "the end: wanted at or from"), ("system fails at", "the end: wanted weight or a number up to 65535"),
        ("system fails at 65535 dead", ""), ("system fails at 65536 dead", "65536: wanted weight or a number up to 65535"),
        ("system fails at weight", f"the end: wanted {number}"), ("system fails at 2", "the end: wanted dead or in"),
        ("system fails at 2 in", "the end: wanted a row or a number up to 65535"), ("system fails at 2 in a", "the end: wanted row"),
        ("system fails at 2 in x", "x: wanted a row or a number up to 65535"), ("system fails at 2 in a row x", "x: wanted round, from or the line's end"),
        ("system fails at 2 in 3 x", "x: wanted round, from or the line's end"), ("system fails at 2 in 3 round x", "x: wanted from or the line's end"),
        ("system fails at 2 in 3 round round", "round: wanted from or the line's end"), ("system fails from", f"the end: wanted {number}"),
        ("system fails from 1 dead", "dead: wanted to"), ("system fails from 1 to 2", "the end: wanted dead"),
        ("system fails from 1 to 2 dead x", "x: wanted from or the line's end"), ("system needs 1 any", "any: wanted of"),
        ("system needs 1 of 2", "2: wanted any"), ("system needs 1 of any 2 round", "round: wanted from or the line's end"),
        ("system kind 1 second 2", "second: wanted first"), ("system kind 1 first 2 3", "3: wanted second"),
        ("system kind 4 first 2 second 0 round", "round: wanted from or the line's end"), ("system kind 65536 first 1 second 1", f"65536: wanted {number}"),
        ("system fails at 1 dead from 1", "the end: wanted to"), ("system fails at 1 dead from 1 to", f"the end: wanted {number}"),
        ("system fails at 1 dead from 1 to 2 x", "x: wanted the line's end"), ("# x", ""), ("", ""), ("fan 5 # on 1", ""),
    ):
        yield of_line(line), told
    for line, told in (
        ("board", f"the end: wanted {survival}"), ("board 0.5 x", "x: wanted the line's end"), ("fan 5 on", "the end: wanted a board from 1 to 4"),
        ("fan 5 on 0", "0: wanted a board from 1 to 4"), ("fan 5 on 1", ""), ("fan 5 on 5", "5: wanted a board from 1 to 4"),
        ("fan 5 on 2", "2: wanted a board from 1 to 1"), ("fans 3 5 on 2", "2: wanted a board from 1 to 1"),
        ("fan 5 on 1 weight 3", "weight: wanted the line's end"),
    ):
        yield of_line(line, BOARDS_VERSION), told


def off_the_grid():
    """Version 1 has decimals on the grid of 2^30 alone; the two nearest parts are named."""
    for word, below in (("0.985", 1057635696), ("0.000000001", 1), ("0.999999999", 1073741822), ("0.1", 107374182), ("0.3", 322122547)):
        yield of_line(f"fan {word}", 1), f"{word}: wanted a decimal on the grid of 2^30, as {below} or {below + 1} parts"
        yield of_line(f"fan {word}", 2), ""
    for word, parts in (("0.5", 2 ** 29), ("0.75", 3 * 2 ** 28), ("0.001953125", 2 ** 21), ("1.0", 2 ** 30), ("0.0", 0), ("0.000000000", 0)):
        yield deck_of(f"version 1\nfan {word}\n{DEAD}").survivals, [parts]


def faults_of_texts():
    """What is told of a text as a whole, its line the one behind the last; and where each line's number comes from."""
    ends = "line {0}: the end: wanted a fan\nline {0}: the end: wanted a system\n".format
    yield said(""), (b"", ends(1))
    yield said("\n\n# x"), (b"", ends(4))
    yield said("version 3\n"), (b"", ends(2) + "line 2: the end: wanted a board\n")
    yield said("version 4\nfan 5\n" + DEAD), (b"", "line 1: 4: wanted 1, 2 or 3\n")
    yield said("version\nfan 5\n" + DEAD), (b"", "line 1: the end: wanted 1, 2 or 3\n")
    yield said("version 1 x\nfan 0.1\n" + DEAD), (b"", "line 1: x: wanted the line's end\n")
    yield said("x\nversion 3\nfan 5\n" + DEAD), (b"", f"line 1: x: wanted version, {PLACED}\nline 2: version: wanted {PLACED}\n")
    yield said("\n\nfan 5\n\tx y\n" + DEAD), (b"", f"line 4: x: wanted {PLACED}\n")
    yield said("fans 64 5\nfan 6\n" + DEAD), (b"", "line 2: fan: wanted at most 64 fans\n")
    yield said("fans 60 5\nfans 5 6\nfans 4 6\n" + DEAD), (b"", "line 2: fans: wanted at most 64 fans\n")
    yield said("fan 5\n" + DEAD * 33), (b"", "line 34: system: wanted at most 32 systems\n")
    yield said("version 3\n" + "board 1\n" * 5 + "fan 5\n" + DEAD), (b"", "line 6: board: wanted at most 4 boards\n")
    yield said("version 3\nfans 2 5 on 2\nfan 6 on 1\nfan 7 on 4\nboard 1\n" + DEAD), (
        b"", "line 2: 2: wanted a board from 1 to 1\nline 4: 4: wanted a board from 1 to 1\n")
    yield said("x\n" * 30), (b"", f"line 1: x: wanted version, {PLACED}\n" + "".join(f"line {line}: x: wanted {PLACED}\n" for line in range(2, 21)))
    yield said("fan 5\n" + DEAD + "#" * 65536 + "\n")[1], ""
    yield said("fan 5\n" + DEAD + "#" * 65537 + "\nx"), (b"", f"line 3: the end: wanted a line of at most 65536 bytes\nline 4: x: wanted {PLACED}\n")
    # a line that is too long is no thing: the version may still follow
    yield said("#" * 65537 + "\nversion 1\nfan 5\n" + DEAD)[1], "line 1: the end: wanted a line of at most 65536 bytes\n"


def warnings():
    """What the text may say and the rating refuses."""
    for text, told in (
        ("fan 1000000001\n" + DEAD, "system 1 will be refused 4\n"), ("version 1\nfan 1073741824\n" + DEAD, ""),
        ("fan 5\nsystem kind 9 first 1 second 0\n", "system 1 will be refused 1\n"),
        ("fan 5\n" + DEAD + "system fails at 1 dead from 1 to 2\n", "system 2 will be refused 3\n"),
        ("fan 5\nsystem fails at 3 in 2\n", "system 1 will be refused 6\n"), ("fan 5 weight 121\nsystem fails at weight 1\n", "system 1 will be refused 5\n"),
        ("version 3\nboard 4294967295\nfan 5\n" + DEAD * 2, "system 1 will be refused 4\nsystem 2 will be refused 4\n"),
    ):
        data, warned = said(text)
        yield warned, told
        yield bool(data), True
        # the same numbers as in decklist's lines
        yield [line.split()[-1] for line in warned.splitlines()], [line.split()[-1] for line in decklist_output(data).splitlines()[1:] if "refused" in line]


def there_and_back():
    """Every sound file comes back, and every deck that is said otherwise."""
    rng = random.Random(161)
    for version in UNITS:
        for _ in range(DECKS):
            deck = random_deck(rng, version)
            data = deck_bytes(deck)
            yield deck_bytes(read_text(deckshow_output(data).encode())), data
            yield deck_bytes(read_text(other_words(rng, deck))), data
    for version, text in SOUND.items():
        made = deckmake_output(text)[0]
        yield read_deck(made).version, version
        yield deckmake_output(deckshow_output(made).encode())[0], made


GROUPS = (
    example_typed, rules_typed, fans_typed, numbers_read, words_and_lines, faults_of_lines, off_the_grid, faults_of_texts, warnings, there_and_back,
)
