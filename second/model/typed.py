"""deckmake and deckshow again: a text into a deck file, and a deck file into a text.

A text has one thing a line; words stand apart by blanks, tabs or carriage returns, and `#` begins a comment:

    version 1 | 2 | 3                                   first, 2 without it
    fan P [weight W] [on B]
    fans COUNT P [weight W] [on B]
    board P
    system RULE [from A to B]

P has no point and is in parts of the unit, or has one and is a decimal from 0 to 1. RULE is one of

    fails at K dead | fails at weight K | fails from L to H dead | fails at K in a row [round] | fails at K in R [round]
    needs K of any R | kind N first F second S
"""

import sys
from functools import lru_cache
from typing import NamedTuple

from second.model.deck_file import deck_bytes, file_refusal, read_deck
from second.model.loading import rate_system
from second.model.terms import ASKED_AGAIN, BOARDS_VERSION, MOST_BOARDS, MOST_FANS, MOST_SYSTEMS, UNITS, Boards, Deck, Refusal, Rule, System

NEWLINE, COMMENT, BLANKS = b"\n", b"#", b" \t\r"
LONGEST_LINE = 65536  # of bytes before the newline
FIRST_VERSION = 2  # without a line of its own
DIGITS = 9  # after the point
MOST_TOLD = 20
MOST_NUMBER, MOST_PARTS = 2 ** 16 - 1, 2 ** 32 - 1
SHOWN = 20  # bytes of a word

THING = "version, fan, fans, board or system"
END = "the line's end"
NUMBER = "a number up to 65535"
sys.set_int_max_str_digits(0)  # a number has as many digits as one likes


class Fault(NamedTuple):
    line: int
    word: bytes  # empty where the line has no more words
    wanted: str


class Wrong(Exception):
    def __init__(self, word, wanted):
        super().__init__(word, wanted)
        self.word, self.wanted = word, wanted


def lines_of(text):
    """The lines of a text; what follows the last newline is a line unless it is empty."""
    lines = text.split(NEWLINE)
    return lines[:-1] if lines[-1] == b"" else lines


@lru_cache(maxsize=ASKED_AGAIN)
def words_of(line):
    plain = line.split(COMMENT)[0]
    for blank in BLANKS:
        plain = plain.replace(bytes([blank]), b" ")
    return [word for word in plain.split(b" ") if word]


class Cursor:
    """The words of a line, one after another; an empty word stands for the line's end."""

    def __init__(self, words):
        self.words, self.at = words, 0
        self.round = False  # may `round` follow?

    def peek(self):
        return self.words[self.at] if self.at < len(self.words) else b""

    def take(self):
        word = self.peek()
        self.at += 1
        return word

    def taken(self, word):
        if self.peek() != word:
            return False
        self.at += 1
        return True

    def want(self, word):
        if not self.taken(word):
            raise Wrong(self.peek(), word.decode())

    def number(self, wanted=NUMBER, least=0, most=MOST_NUMBER):
        word = self.peek()
        value = whole(word)
        if value is None or not least <= value <= most:
            raise Wrong(word, wanted)
        self.at += 1
        return value

    def end(self, wanted=END):
        if self.peek():
            raise Wrong(self.peek(), wanted)


def whole(word):
    """A number in decimal digits, as many as one likes."""
    return int(word) if word and all(48 <= byte <= 57 for byte in word) else None


def fraction(word):
    """A decimal from 0 to 1 with a point and at most nine digits after it, as billionths."""
    before, point, after = word.partition(b".")
    if not point or whole(before) is None or whole(after) is None or len(after) > DIGITS:
        return None
    value = int(before) * 10 ** DIGITS + int(after) * 10 ** (DIGITS - len(after))
    return value if value <= 10 ** DIGITS else None


def survival(cursor, version):
    word = cursor.peek()
    parts = whole(word)
    if parts is not None and parts <= MOST_PARTS:
        cursor.at += 1
        return parts
    billionths = fraction(word)
    if billionths is None:
        raise Wrong(word, "parts up to 4294967295, or a decimal from 0 to 1 of at most nine digits")
    below, over = divmod(billionths * UNITS[version], 10 ** DIGITS)
    if over:
        raise Wrong(word, f"a decimal on the grid of 2^30, as {below} or {below + 1} parts")
    cursor.at += 1
    return below


def fan(cursor, version):
    """What follows the number of fans: P, the weight, the board."""
    parts = survival(cursor, version)
    weight = board = 0
    weighed = cursor.taken(b"weight")
    if weighed:
        weight = cursor.number("a weight up to 65535")
    if cursor.peek() == b"on":
        with_boards(cursor, version)
        cursor.take()
        board = cursor.number("a board from 1 to 4", 1, MOST_BOARDS)
        cursor.end()
    cursor.end("on or the line's end" if weighed else "weight, on or the line's end")
    return parts, weight, board


def with_boards(cursor, version):
    if version != BOARDS_VERSION:
        raise Wrong(cursor.peek(), "version 3, which has boards")


def rule(cursor):
    if cursor.taken(b"fails"):
        return failing(cursor)
    if cursor.taken(b"needs"):
        k = cursor.number()
        cursor.want(b"of")
        cursor.want(b"any")
        return Rule(8, k, cursor.number())
    if cursor.taken(b"kind"):
        kind = cursor.number()
        cursor.want(b"first")
        first = cursor.number()
        cursor.want(b"second")
        return Rule(kind, first, cursor.number())
    raise Wrong(cursor.peek(), "fails, needs or kind")


def failing(cursor):
    if cursor.taken(b"from"):
        low = cursor.number()
        cursor.want(b"to")
        high = cursor.number()
        cursor.want(b"dead")
        return Rule(3, low, high)
    if not cursor.taken(b"at"):
        raise Wrong(cursor.peek(), "at or from")
    if cursor.taken(b"weight"):
        return Rule(2, cursor.number(), 0)
    k = cursor.number("weight or a number up to 65535")
    if cursor.taken(b"dead"):
        return Rule(1, k, 0)
    if not cursor.taken(b"in"):
        raise Wrong(cursor.peek(), "dead or in")
    if cursor.taken(b"a"):
        cursor.want(b"row")
        return rounded(cursor, 4, 5, k, 0)
    return rounded(cursor, 6, 7, k, cursor.number("a row or a number up to 65535"))


def rounded(cursor, line, ring, first, second):
    cursor.round = not cursor.taken(b"round")
    return Rule(line if cursor.round else ring, first, second)


def system(cursor):
    """A rule and its stretch; None for the whole deck."""
    asked = rule(cursor)
    if not cursor.taken(b"from"):
        cursor.end("round, from or the line's end" if cursor.round else "from or the line's end")
        return asked, None
    a = cursor.number()
    cursor.want(b"to")
    b = cursor.number()
    cursor.end()
    return asked, (a, b)


class Typist:
    """What has been read so far."""

    def __init__(self):
        self.version, self.begun = FIRST_VERSION, False
        self.fans, self.boards, self.systems, self.faults = [], [], [], []
        self.lines = 0

    def told(self, word, wanted):
        self.faults.append(Fault(self.lines, word, wanted))

    def line(self, line):
        self.lines += 1
        if len(line) > LONGEST_LINE:
            return self.told(b"", "a line of at most 65536 bytes")
        cursor = Cursor(words_of(line))
        if cursor.peek():
            try:
                self.thing(cursor)
            except Wrong as wrong:
                self.told(wrong.word, wrong.wanted)
            self.begun = True

    def thing(self, cursor):
        word = cursor.take()
        if word == b"version" and not self.begun:
            version = cursor.number("1, 2 or 3", 1, BOARDS_VERSION)
            cursor.end()
            self.version = version
        elif word == b"fan":
            self.more_fans(word, 1, fan(cursor, self.version))
        elif word == b"fans":
            count = cursor.number("a number of fans from 1 to 64", 1, MOST_FANS)
            self.more_fans(word, count, fan(cursor, self.version))
        elif word == b"board":
            cursor.at -= 1
            with_boards(cursor, self.version)
            cursor.at += 1
            parts = survival(cursor, self.version)
            cursor.end()
            room(word, self.boards, 1, MOST_BOARDS, "at most 4 boards")
            self.boards.append(parts)
        elif word == b"system":
            asked = system(cursor)
            room(word, self.systems, 1, MOST_SYSTEMS, "at most 32 systems")
            self.systems.append(asked)
        else:
            raise Wrong(word, "fan, fans, board or system" if self.begun else THING)

    def more_fans(self, word, count, one):
        room(word, self.fans, count, MOST_FANS, "at most 64 fans")
        self.fans += [(*one, self.lines)] * count

    def last(self):
        """What can be told only when all lines are read."""
        self.lines += 1
        if not self.fans:
            self.told(b"", "a fan")
        if not self.systems:
            self.told(b"", "a system")
        if self.version == BOARDS_VERSION and not self.boards:
            self.told(b"", "a board")
        g = len(self.boards)
        told = set()
        for parts, weight, board, line in self.fans:
            if board > g > 0 and line not in told:
                told.add(line)
                self.faults.append(Fault(line, str(board).encode(), f"a board from 1 to {g}"))

    def deck(self):
        n = len(self.fans)
        systems = [System(asked, *(stretch or (1, n))) for asked, stretch in self.systems]
        boards = Boards([board for _, _, board, _ in self.fans], self.boards) if self.version == BOARDS_VERSION else Boards([], [])
        return Deck([p for p, _, _, _ in self.fans], [w for _, w, _, _ in self.fans], systems, self.version, boards)


def room(word, things, more, most, wanted):
    if len(things) + more > most:
        raise Wrong(word, wanted)


def read_text(text):
    """The deck that a text lists, or its faults."""
    typist = Typist()
    for line in lines_of(text):
        typist.line(line)
    typist.last()
    return typist.faults or typist.deck()


def shown(word):
    """A word as it is told: what is no plain character as a question mark, at most twenty."""
    plain = "".join(chr(byte) if 32 < byte < 127 else "?" for byte in word[:SHOWN])
    return plain + (".." if len(word) > SHOWN else "") if word else "the end"


def fault_line(fault):
    return f"line {fault.line}: {shown(fault.word)}: wanted {fault.wanted}\n"


def deckmake_output(text):
    """What deckmake writes, and what it says."""
    deck = read_text(text)
    if isinstance(deck, list):
        return b"", "".join(fault_line(fault) for fault in deck[:MOST_TOLD])
    answers = (rate_system(deck, asked) for asked in deck.systems)
    warnings = (f"system {at} will be refused {answer.number}\n" for at, answer in enumerate(answers, 1) if isinstance(answer, Refusal))
    return deck_bytes(deck), "".join(warnings)


def rule_words(asked):
    kind, first, second = asked.numbers
    if kind == 1 and second == 0:
        return f"fails at {first} dead"
    if kind == 2 and second == 0:
        return f"fails at weight {first}"
    if kind == 3:
        return f"fails from {first} to {second} dead"
    if kind in (4, 5) and second == 0:
        return f"fails at {first} in a row" + " round" * (kind == 5)
    if kind in (6, 7):
        return f"fails at {first} in {second}" + " round" * (kind == 7)
    if kind == 8:
        return f"needs {first} of any {second}"
    return f"kind {kind} first {first} second {second}"


def fan_words(deck, at):
    weight, board = deck.weights[at], deck.boards.of_fans[at] if deck.version == BOARDS_VERSION else 0
    return f"{deck.survivals[at]}" + (f" weight {weight}" if weight else "") + (f" on {board}" if board else "")


def system_line(deck, asked):
    stretch = "" if (asked.a, asked.b) == (1, len(deck.survivals)) else f" from {asked.a} to {asked.b}"
    return f"system {rule_words(asked.rule)}{stretch}\n"


def deckshow_output(data):
    number = file_refusal(data)
    if number:
        return f"file refused {number}\n"
    deck = read_deck(data)
    lines = [f"version {deck.version}\n"]
    lines += [f"board {parts}\n" for parts in deck.boards.survivals] if deck.version == BOARDS_VERSION else []
    lines += [f"fan {fan_words(deck, at)}\n" for at in range(len(deck.survivals))]
    return "".join(lines + [system_line(deck, asked) for asked in deck.systems])
