"""Texts to try deckmake on: slips at every place of the grammar, the edges of every range, bytes that are no text, long words and lines, very many lines,
and decks told in other words than deckshow's."""

from second.model.terms import BOARDS_VERSION, UNITS
from second.model.typed import DIGITS, LONGEST_LINE, MOST_NUMBER, MOST_PARTS, rule_words

# A line for each way through the grammar, but for the version's.
LINES = (
    "fan 5", "fan 0.5 weight 3", "fan 5 on 1", "fan 5 weight 3 on 1", "fans 2 7", "fans 1 0.25 weight 1 on 1", "board 0.75", "system fails at 1 dead",
    "system fails at weight 3 from 1 to 2", "system fails from 0 to 1 dead from 2 to 3", "system fails at 2 in a row"
    , "system fails at 2 in a row round from 1 to 3", "system fails at 2 in 3", "system fails at 2 in 3 round from 1 to 3"
    , "system needs 1 of any 2 from 1 to 2", "system kind 9 first 1 second 2 from 0 to 65535",
)
# Words that are wrong at most places: of the grammar, numbers out of every range, and nearly right ones.
WRONG = (
    "x", "version", "fan", "board", "system", "weight", "on", "from", "to", "dead", "round", "a", "65536", "-1", "Fan", "fanx",
)
NUMBERS = (
    "0", "1", "4", "5", "64", "65", "007", MOST_NUMBER, MOST_NUMBER + 1, MOST_PARTS, MOST_PARTS + 1, 2 ** 64, 10 ** 30, "0" * 30 + "5", "", ".", ".5", "0."
    , "0.0", "1.", "1.0", "1.000000001", "0.999999999", "0.1234567891", "0.0000000000", "0.000000001", "00.5", "01.0", "2.0", "0.5.5", "0,5", "0x5", "-0.5"
    , "4294967296.0", "0.5e1", "½",
)
TELLING = 17  # faulty lines in a text, so that what is told last still shows among the twenty
SOUND = {
    1: b"version 1\nfan 0.5\nfans 2 536870912 weight 7\nsystem fails at 2 dead\n",
    2: b"fan 0.985\nfans 2 998000000 weight 7\nsystem fails at 2 in a row round\nsystem needs 1 of any 2 from 2 to 3\n",
    3: b"version 3\nboard 0.9\nboard 5\nfan 0.25 weight 1 on 2\nfans 2 7 on 1\nsystem fails at weight 1\n",
}
# So many bytes of a text are read at a time.
PIECE = 65536
MILLION = 10 ** 6


def several(version, lines):
    """Texts of a version, each with so many of the lines that all faults are told."""
    front = f"version {version}\n"
    lines = list(dict.fromkeys(lines))
    for at in range(0, len(lines), TELLING):
        yield (front + "".join(f"{line}\n" for line in lines[at:at + TELLING])).encode()


def lines_for(version):
    """The lines that a version may read in its own way: in versions 1 and 2 those of fans and boards."""
    return [line.split() for line in LINES if version == BOARDS_VERSION or not line.startswith("system")]


def slips(version):
    """Every place of every line: a wrong word there, the line's end there, the word left out; and a word more."""
    for words in lines_for(version):
        for at in range(len(words) + 1):
            yield from (" ".join((*words[:at], wrong, *words[at + 1:])) for wrong in WRONG)
            yield from (" ".join(words[:at]), " ".join((*words[:at], *words[at + 1:])))


def numbers(version):
    """Every number of every line, set to each edge and to what only looks like a number."""
    for words in lines_for(version):
        for at in (at for at, word in enumerate(words) if word[0].isdigit()):
            yield from (" ".join((*words[:at], str(number), *words[at + 1:])) for number in NUMBERS)


def decimals():
    """Survival numbers about the grid of 2^30 in version 1: on it, between two of its parts, and at its ends."""
    for word in ("0.5", "0.985", "0.000000001", "0.999999999", "0.000000000", "1.000000000", "0.001953125", "0.001953126", "0.123456789", "0.75", "1.0", "0.1"):
        yield from (f"fan {word}", f"fans 3 {word} weight 2", f"fan {word} on 1", f"board {word}", f"fan {word} x")


def counts(version):
    """Texts about the most fans, boards and systems, in one line and in several, and without any."""
    front, system = f"version {version}\n" + ("board 1\n" if version == BOARDS_VERSION else ""), "system fails at 1 dead\n"
    fans = [["fans 64 5"], ["fans 65 5"], ["fans 0 5"], ["fans 1 5"], ["fan 5"] * 64, ["fan 5"] * 65, ["fan 5"] * 70, ["fans 63 5", "fan 6"], ["fans 63 5"
    , "fans 2 6"],
            ["fans 64 5", "fan 6", "fan 7"], ["fans 60 5", "fans 5 6", "fans 4 7"], []]
    for lines in fans:
        yield front + "".join(f"{line}\n" for line in lines) + system
    yield from (front + "fan 5\n" + system * count for count in (0, 1, 31, 32, 33, 40))
    yield from (f"version {version}\n" + "board 7\n" * count + f"fan 5 on {on}\n" + system for count in range(7) for on in (1, 4))
    yield from (f"version {version}\n", f"version {version}\n{system}", f"version {version}\nfan 1\n", "version 4\n" + system, "version 0\n" + system, "")


def boards():
    """Fans on boards that are not there, which only the text's end tells, once a line."""
    front, system = "version 3\n", "system fails at 1 dead\n"
    yield front + "fan 5 on 2\nfans 3 5 on 3\nboard 7\nfan 5 on 1\nfans 2 5 on 4\n" + system
    yield front + "fans 3 5 on 3\n" + system
    yield front + "fan 5 on 1\n" * 30 + "fan 5 on 2\n" * 30 + "board 7\n" + system
    yield front + "x\n" * 19 + "fan 5 on 2\nfan 5 on 3\nboard 7\n"
    yield front + "board 7\n" * 5 + "fan 5 on 4\n" + system


def versions():
    """Where a version may stand, and which there are."""
    rest = "fan 5\nsystem fails at 1 dead\n"
    for word in ("0", "1", "2", "3", "4", "", "x", "01", "2.0", "1 1", "3 x", "65537"):
        yield from (f"version {word}\n{rest}", f"# a comment\n\n version {word} # more\n{rest}", f"{rest}version {word}\n", f"x\nversion {word}\n{rest}")
    yield f"version 1\nversion 2\n{rest}"
    yield f"version\nversion 3\nboard 5\n{rest}"
    yield f"version 3 3\nboard 5\nfan 0.5 on 1\n{rest}"


def named(version):
    """Texts of a version about the counts, and what only one version has."""
    yield from (text.encode() for text in counts(version))
    if version == BOARDS_VERSION:
        yield from (text.encode() for text in (*boards(), *versions()))
    if version == 1:
        yield from several(version, decimals())


def layouts(text):
    """The same text with other blanks, line ends and comments; each says the same deck."""
    yield from (text, text[:-1], text.replace(b"\n", b"\r\n"), text.replace(b" ", b"\t"), text.replace(b" ", b" \t\r  "), text + b"\n\n", b"\n\n" + text)
    yield from (text.replace(b"\n", b"# x\n"), text.replace(b"\n", b" # fan 5 # \xff\0\n"), b"# version 9\n#\n" + text, text + b"# no newline")
    yield from (text + b"\r", text + b" \t")
    yield from (text.replace(b"\n", b" \n"), text.replace(b"\n", b"\n "), text.replace(b"\n", b"\n#fan 5\n"), text.replace(b"\n", b"#fan 5\n"))


def no_text():
    """Bytes that are no text: each of the 256 as a word, within a word, behind a number and behind a line."""
    yield from (b"", b"\n", b"\r", b"\0", b"\xff", b"\0" * 300, bytes(range(256)), bytes(range(256)) * 3, b"\n" * 30, b"#", b"fan", b"f")
    shapes = (b"%s", b"fa%sn 5", b"fan 5%s", b"fan 5%s6", b"fan 5 %s", b"fan %s", b"%sfan 5", b"fan%s5")
    lines = [shape % bytes([byte]) for shape in shapes for byte in range(256) if byte != 10]
    for at in range(0, len(lines), TELLING):
        yield b"\n".join(lines[at:at + TELLING])


def long_words():
    """Words of twenty bytes, of more, and as long as a line; numbers with as many zeros before them."""
    for length in (1, 19, 20, 21, 256, LONGEST_LINE - 6, LONGEST_LINE, 100000):
        for letter in (b"x", b"0", b"9", b".", b"\xff"):
            yield from (letter * length + b"\n" + SOUND[2], b"fan 5 " + letter * length + b"\n" + SOUND[2], b"fan " + letter * length + b"7\n" + SOUND[2])


def long_lines():
    """Lines about the longest that is read and about the buffer's length, with and without a newline and good lines behind them."""
    for length in (LONGEST_LINE - 1, LONGEST_LINE, LONGEST_LINE + 1, PIECE - 1, PIECE, PIECE + 1, 2 * PIECE, 300000):
        for front in (b"", b"fan 5\n"):
            for line in (b"#" * length, b"fan 5 " + b"#" * (length - 6), b"fan " + b" " * (length - 5) + b"6"):
                yield from (front + line, front + line + b"\n", front + line + b"\n" + SOUND[2][:-1], front + line + b"\nfan x\n" + line + b"\n" + line)


def across():
    """Good and faulty lines across the buffer's end, a byte further each time; and across the next."""
    for border in (PIECE, 2 * PIECE, PIECE + LONGEST_LINE):
        for early in range(-2, 14, 1 if border == PIECE else 3):
            lines = border // 1024
            front = (b"#" * 1023 + b"\n") * (lines - 1) + b"#" * (1023 - early) + b"\n"
            yield front + b"fan 5 weight 3\nfan 5 x\n" + SOUND[2]
            yield front + SOUND[2]
    yield b"\n" * (PIECE - 1) + SOUND[2]
    yield b"\n" * PIECE + SOUND[2]
    yield (b"#" * (LONGEST_LINE - 1) + b"\n") * 4 + SOUND[2]
    yield (b"#" * LONGEST_LINE + b"\n") * 4 + SOUND[2]
    yield (b"x " * 600 + b"\n") * 300


def many_lines():
    """A million lines about a small deck, and a hundred thousand faulty ones."""
    yield b"# a comment\n" * (MILLION // 2) + SOUND[3] + b"\r\n" * (MILLION // 2)
    yield b"x\n" * (MILLION // 10)


def random_lines(rng):
    """Lines of the grammar's words in no order, and lines of it with one word exchanged or left out."""
    words = sorted({word for line in LINES for word in line.split()} | set(WRONG))
    for _ in range(TELLING):
        line = rng.choice(LINES).split()
        manner = rng.randrange(4)
        if manner == 0:
            line = [rng.choice(words) for _ in range(rng.randrange(8))]
        elif manner == 1:
            line[rng.randrange(len(line))] = rng.choice(words)
        elif manner == 2:
            del line[rng.randrange(len(line))]
        yield " ".join(line)


def survival_words(rng, parts, version):
    """A survival number as parts or, where nine digits take it, as a decimal."""
    billionths, over = divmod(parts * 10 ** DIGITS, UNITS[version])
    if over or parts > UNITS[version] or rng.random() < 0.3:
        return "0" * rng.choice((0, 0, 1, 5)) + str(parts)
    whole, rest = divmod(billionths, 10 ** DIGITS)
    digits = f"{rest:0{DIGITS}d}"
    least = len(digits.rstrip("0")) or 1
    return f"{whole}.{digits[:rng.randint(least, DIGITS)]}"


def fan_lines(rng, deck):
    """Fans that are alike may stand in one line; a weight of none may be said or left out."""
    boards = deck.boards.of_fans if deck.version == BOARDS_VERSION else [0] * len(deck.survivals)
    fans = list(zip(deck.survivals, deck.weights, boards))
    while fans:
        alike = next((at for at, fan in enumerate(fans) if fan != fans[0]), len(fans))
        count = rng.randint(1, alike)
        parts, weight, board = fans[0]
        words = [f"fans {count}" if count > 1 or rng.random() < 0.3 else "fan", survival_words(rng, parts, deck.version)]
        words += [f"weight {weight}"] if weight or rng.random() < 0.3 else []
        yield " ".join(words + ([f"on {board}"] if board else []))
        fans = fans[count:]


def system_lines(rng, deck):
    """Rules in words or by their numbers; the whole deck's stretch said or left out."""
    for rule, a, b in deck.systems:
        kind, first, second = rule.numbers
        words = rule_words(rule) if rng.random() < 0.7 else f"kind {kind} first {first} second {second}"
        said = (a, b) != (1, len(deck.survivals)) or rng.random() < 0.3
        yield f"system {words}" + (f" from {a} to {b}" if said else "")


def other_words(rng, deck):
    """A deck as a person may type it: things of one sort in their order, those of several sorts mixed, with comments and blanks."""
    boards = [f"board {survival_words(rng, parts, deck.version)}" for parts in deck.boards.survivals] if deck.version == BOARDS_VERSION else []
    sorts = [list(fan_lines(rng, deck)), list(system_lines(rng, deck)), boards]
    lines = [f"version {deck.version}"] if deck.version != 2 or rng.random() < 0.5 else []
    while any(sorts):
        lines.append(rng.choice([sort for sort in sorts if sort]).pop(0))
        if rng.random() < 0.1:
            lines.append(rng.choice(("", "# a comment", " \t# fan 5")))
    blank, end = rng.choice((" ", "\t", "  ", " \t ")), rng.choice(("\n", "\r\n", " # x\n"))
    return "".join(line.replace(" ", blank) + end for line in lines).encode()
