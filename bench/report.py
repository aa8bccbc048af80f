"""Runs the programs that bench/run has built on the same cases, sees that they agree, and writes what each costs to a page, which it draws too."""

import os
import platform
import subprocess
import sys
from datetime import date
from typing import NamedTuple

from bench import plots
from bench.cases import (
    BOARDS, DECIMAL, KINDS, PAIRS_KIND, SIZES, UNIT, agreed_cases, agreed_windows, count_cases, living, longest_cases, steps, weights, window_cases,
    worst_cases,
)

# A double that has gone through n rounded steps is this near, in units of 2^-30.
NEAR = 0.001
# How far apart a chance may be in the two units, and how much dearer a rating may be in the second.
NEAR_UNITS = 1e-6
DEARER = 1.6
# The sets of failed boards.
SETS = 2 ** len(BOARDS.survivals)
# The instructions of the loop that the driver runs first.
KNOWN = 2001
# The instructions of clearing a working table, which a count table's peers do not do.
CLEARING = 6829
HEAD = """# What a rating costs: results

`make bench` makes this page and its two drawings; nobody edits them. docs/BENCH.md says what is measured, and against what.

![Instructions of a rating over n, for each kind beside its peers](bench-costs.svg)

![What version 2 costs, in times version 1](bench-units.svg)
"""
WAYS = ("library", "plain", "directed", "fractions", "integers", "whole")
NAMES = {"plain": "(a)", "directed": "(b)", "fractions": "(c)", "integers": "(c')"}
WINDOW_NAMES = {"listed": "(e)", "tested": "(f)"}
LINES, RINGS = (1, 2, 3, 4, 6), (5, 7)


class Measured(NamedTuple):
    """One program's answers and costs, case by case."""

    answers: list
    costs: list


def fail(*words):
    sys.exit("bench: " + " ".join(map(str, words)))


def run(command, cases):
    """What the program prints: low, high and, where it was timed, nanoseconds, a line a case."""
    lines = "".join(case.line() + "\n" for case in cases)
    output = subprocess.run(command, input=lines, capture_output=True, text=True, check=True).stdout
    return [tuple(map(float, line.split())) for line in output.splitlines()]


def counted(room, way, cases):
    """Answers and instructions, on the same plain x-86 processor everywhere."""
    marks = os.path.join(room, way + ".marks")
    answers = run(["qemu-x86_64", "-cpu", "qemu64", "-plugin", f"{room}/counter.so,out={marks}", f"{room}/{way}"], cases)
    costs = costs_between(way, [int(line) for line in open(marks)])
    if not len(costs) == len(answers) == len(cases):
        fail(way, "rated", len(costs), "of", len(cases), "cases")
    return Measured([answer[:2] for answer in answers], costs)


def costs_between(way, marks):
    """Three marks stand around the loop of known length and around nothing, then four around two ratings of each case."""
    empty = marks[2] - marks[1]
    if marks[1] - marks[0] - empty != KNOWN:
        fail("the counter counts", marks[1] - marks[0] - empty, "where", KNOWN, "instructions were run")
    costs = []
    for at in range(3, len(marks), 4):
        once, again = marks[at + 1] - marks[at], marks[at + 3] - marks[at + 2]
        if once != again:
            fail(way, "takes", once, "instructions, then", again)
        costs.append(once - empty)
    return costs


def agrees(way, answer, low, high):
    """Is a peer's answer one that the library's two ends allow?"""
    if way == "whole":
        return answer == (low, high)
    if way in ("fractions", "integers"):
        return low <= answer[0] <= answer[1] <= high
    return low - NEAR <= answer[1] and answer[0] <= high + NEAR and answer[0] <= answer[1]


def see_agreement(cases, library, way, peer):
    for case, ours, theirs in zip(cases, library.answers, peer.answers):
        if not agrees(way, theirs, *ours):
            fail(way, "has", theirs, "and the library", ours, "of", case.line())


def comma(number):
    return f"{number:,.0f}"


def ratio(a, b):
    return f"{a / b:.2f}" if a < 10 * b else comma(a / b)


def asked(rule):
    if rule.kind == PAIRS_KIND:
        return ", ".join(f"{k} of {r}" for k, r in rule.pairs)
    if rule.kind == 3:
        return f"l {rule.first}, h {rule.second}"
    return f"r {rule.second}" if rule.kind > 5 else f"k {rule.first}"


def laid(case):
    """Other weights than those of the table above."""
    return f", weights {case.weights[0]} to {case.weights[-1]}" if case.weights != weights(len(case.weights)) else ""


def table(heads, rows):
    lines = ["| " + " | ".join(heads) + " |", "|" + "---|" * len(heads)]
    return "\n".join(lines + ["| " + " | ".join(row) + " |" for row in rows]) + "\n"


class Results:
    """What each way costs at the rule with the most steps of each kind and size, and at the rules that cost the library most."""

    def __init__(self, room):
        self.room = room
        self.ways = [way for way in WAYS if os.path.exists(f"{room}/{way}")]
        self.cases = worst_cases()
        self.at = {(case.rule.kind, len(case.survivals)): place for place, case in enumerate(self.cases)}
        self.measure()
        self.measure_figure1()
        self.measure_dearest()
        self.measure_windows()
        self.measure_units()
        self.measure_boards()
        self.measure_worths()
        self.measure_counts()

    def measure(self):
        """The peers must agree on all cases; the costs are kept of the worst."""
        every = self.cases + agreed_cases()
        self.agreed = len(every)
        self.costs = {}
        for way in self.ways:
            measured = counted(self.room, way, every)
            library = measured if way == "library" else library
            see_agreement(every, library, way, measured)
            self.costs[way] = measured.costs[: len(self.cases)]
        self.exact = "fractions" if "fractions" in self.ways else "integers"

    def measure_figure1(self):
        cases = [self.cases[self.at[6, n]] for n in SIZES]
        figure1 = counted(self.room, "figure1", cases)
        see_agreement(cases, counted(self.room, "library", cases), "figure1", figure1)
        self.figure1 = figure1.costs

    def measure_dearest(self):
        cases = longest_cases()
        costs = counted(self.room, "library", cases).costs
        places = [max((p for p, case in enumerate(cases) if case.rule.kind == kind), key=costs.__getitem__) for kind in KINDS]
        self.dearest = [cases[place] for place in places]
        self.dearest_costs = {way: counted(self.room, way, self.dearest).costs for way in ("library", "plain", "directed")}

    def measure_windows(self):
        """Kind 8 beside its own peers, which must agree with the library on these rules and on those of small lists."""
        self.windows = window_cases()
        every = self.windows + agreed_windows()
        self.agreed += len(every)
        self.window_costs = {}
        for way in ("library", *WINDOW_NAMES):
            measured = counted(self.room, way, every)
            library = measured if way == "library" else library
            see_agreement(every, library, way, measured)
            self.window_costs[way] = measured.costs[: len(self.windows)]
        single = [place for place, case in enumerate(self.windows) if not case.rule.more]  # as a deck file has them
        self.dearest_window = max(single, key=self.window_costs["library"].__getitem__)
        self.whole_window = counted(self.room, "whole", [self.windows[self.dearest_window]]).costs[0] if "whole" in self.ways else None

    def measure_units(self):
        """The longest of the first table, the dearest, and kind 8, in either unit."""
        cases = [self.cases[self.at[kind, SIZES[-1]]] for kind in KINDS] + self.dearest + self.windows
        ours, decimal = counted(self.room, "library", cases), counted(self.room, "decimal", [case.in_decimal() for case in cases])
        for case, one, other in zip(cases, ours.answers, decimal.answers):
            if any(abs(a / UNIT - b / DECIMAL) > NEAR_UNITS for a, b in zip(one, other)):
                fail("the two units give", one, other, "of", case.line())
        self.units = list(zip(cases, ours.costs, decimal.costs))

    def measure_boards(self):
        """The longest of the first table and the dearest of kind 8 behind four boards, beside the same without them; the second program must agree."""
        cases = [self.cases[self.at[kind, SIZES[-1]]] for kind in KINDS] + [self.windows[self.dearest_window]]
        cases = [case.in_decimal() for case in cases]
        alone, behind = counted(self.room, "decimal", cases), counted(self.room, "boarded", cases)
        for case, answer in zip(cases, behind.answers):
            if answer != case.behind_boards():
                fail("behind boards the library has", answer, "and the second program", case.behind_boards(), "of", case.line())
        self.boarded = list(zip(cases, alone.costs, behind.costs))

    def measure_worths(self):
        """Each worth beside the two ratings whose difference it is, with the fan sure to work and with it sure to fail."""
        cases = [self.cases[self.at[kind, SIZES[-1]]] for kind in KINDS] + [self.windows[self.dearest_window]]
        worths = counted(self.room, "worth", cases)
        works, fails = (counted(self.room, "library", [case.with_middle(p) for case in cases]) for p in (UNIT, 0))
        for case, ends, first, second in zip(cases, worths.answers, works.answers, fails.answers):
            if ends != (first[0] - second[1], first[1] - second[0]):
                fail("the worth is", ends, "and the ratings are", first, second, "of", case.line())
        self.worths = {case.rule: costs for case, *costs in zip(cases, worths.costs, works.costs, fails.costs)}

    def measure_counts(self):
        """Count tables under every rule: of each kind and size the dearest, and at the longest the one that is nearest to its goal."""
        self.counts, self.nearest, self.counted = {}, {}, 0
        for n in SIZES:
            cases = count_cases(n)
            ours, plain = counted(self.room, "counts", cases), counted(self.room, "recurrences", cases)
            for case, answer, other in zip(cases, ours.answers, plain.answers):
                if answer != other:
                    fail("the count tables differ of", case.line())
            self.counted += len(cases)
            for kind in KINDS:
                found = [(a, b, case) for a, b, case in zip(ours.costs, plain.costs, cases) if case.rule.kind == kind]
                self.counts[kind, n] = max(found, key=lambda one: one[0])
                self.nearest[kind] = max(found, key=lambda one: one[0] / (2 * one[1] + CLEARING))

    def cost(self, way, kind, n=SIZES[-1]):
        return self.costs[way][self.at[kind, n]]

    def rule(self, kind, n=SIZES[-1]):
        return self.cases[self.at[kind, n]].rule

    def steps(self, kind, n=SIZES[-1]):
        return steps(self.rule(kind, n), self.cases[self.at[kind, n]].weights)

    def row(self, kind, n):
        ours, work = self.cost("library", kind, n), self.steps(kind, n)
        peers = [comma(self.cost(way, kind, n)) if way in self.ways else "-" for way in NAMES]
        grown = ratio(ours, self.cost("library", kind, n // 2)) if n > SIZES[0] else ""
        return [str(kind), str(n), asked(self.rule(kind, n)), comma(work), comma(ours), *peers,
                ratio(ours, self.cost("plain", kind, n)), f"{ours / work:.1f}", grown]

    def costs_table(self):
        heads = ["kind", "n", "rule", "steps", "library", *NAMES.values(), "library / (a)", "library a step", "growth"]
        return table(heads, [self.row(kind, n) for kind in KINDS for n in SIZES])

    def dearest_table(self):
        rows = []
        for place, case in enumerate(self.dearest):
            ours, plain, directed = (self.dearest_costs[way][place] for way in ("library", "plain", "directed"))
            work = steps(case.rule, case.weights)
            rows.append([str(case.rule.kind), asked(case.rule) + laid(case), comma(work), comma(ours), comma(plain), comma(directed), f"{ours / work:.1f}"])
        return table(["kind", "rule", "steps", "library", "(a)", "(b)", "library a step"], rows)

    def windows_table(self):
        rows = []
        for place, case in enumerate(self.windows):
            ours, *peers = (self.window_costs[way][place] for way in ("library", *WINDOW_NAMES))
            work = steps(case.rule, case.weights)
            rows.append([asked(case.rule), str(living(case.rule, SIZES[-1])), comma(work), comma(ours), *map(comma, peers),
                         ratio(ours, peers[0]), f"{ours / work:.1f}"])
        return table(["at least", "living", "steps", "library", *WINDOW_NAMES.values(), "library / (e)", "library a step"], rows)

    def units_table(self):
        rows = [[str(case.rule.kind), asked(case.rule) + laid(case), comma(two), f"{two / one:.3f}"] for case, one, two in self.units]
        return table(["kind", "rule", "version 2", "times version 1"], rows)

    def boards_table(self):
        rows = [[str(case.rule.kind), asked(case.rule), comma(behind), ratio(behind, alone)] for case, alone, behind in self.boarded]
        return table(["kind", "rule", "behind four boards", "times version 2"], rows)

    def wholes(self):
        """Of each kind, the whole call and the rating in it."""
        for kind in KINDS:
            yield kind, self.cost("whole", kind), self.cost("library", kind)
        yield PAIRS_KIND, self.whole_window, self.window_costs["library"][self.dearest_window]

    def whole_table(self):
        if "whole" not in self.ways:
            return "Skipped: the crate `loading` is not here.\n"
        rows = [[str(kind), comma(whole), comma(whole - library)] for kind, whole, library in self.wholes()]
        return table(["kind", "whole call", "over the rating"], rows)

    def worths_table(self):
        rows = [[str(rule.kind), asked(rule), comma(costs[0]), comma(costs[0] - costs[1] - costs[2])] for rule, costs in self.worths.items()]
        return table(["kind", "rule", "worth", "over its two ratings"], rows)

    def counts_table(self):
        rows = []
        for (kind, n), (ours, plain, case) in self.counts.items():
            grown = ratio(ours - CLEARING, self.counts[kind, n // 2][0] - CLEARING) if n > SIZES[0] else ""
            rows.append([str(kind), str(n), asked(case.rule) + laid(case), comma(ours), comma(ours - CLEARING), comma(plain), grown])
        return table(["kind", "n", "rule", "library", "less clearing", "(d)", "growth"], sorted(rows, key=lambda row: (row[0], int(row[1]))))

    def a_step(self):
        """The library's cost of a step of kind 1, which the rings are held against."""
        return self.cost("library", 1) / self.steps(1)

    def goals(self):
        """Each goal: what is asked of which cases, the case, what it reaches, what it may be at most."""
        for kind in LINES:
            yield "kinds 1 to 4 and 6: no more than (a)", f"kind {kind}", self.cost("library", kind), self.cost("plain", kind)
        for kind in KINDS:
            yield "kinds 1 to 7: fewer than (b)", f"kind {kind}", self.cost("library", kind), self.cost("directed", kind) - 1
        for kind in KINDS:
            yield f"kinds 1 to 7: 50 times fewer than {NAMES[self.exact]}", f"kind {kind}", self.cost("library", kind), self.cost(self.exact, kind) // 50
        for kind in RINGS:
            yield "kinds 5 and 7: twice their steps at kind 1's cost a step", f"kind {kind}", self.cost("library", kind), 2 * self.steps(kind) * self.a_step()
        yield "kind 2 at its dearest weights: no more than (a)", "kind 2", self.dearest_costs["library"][1], self.dearest_costs["plain"][1]
        for kind in RINGS:
            case, ours = self.dearest[kind - 1], self.dearest_costs["library"][kind - 1]
            yield "kinds 5 and 7 at their dearest rule: the same", f"kind {kind}, {asked(case.rule)}", ours, 2 * steps(case.rule, case.weights) * self.a_step()
        for case, ours, listed in zip(self.windows, self.window_costs["library"], self.window_costs["listed"]):
            yield "kind 8: no more than (e)", f"at least {asked(case.rule)}", ours, listed
        for case, one, two in self.units:
            yield f"version 2: at most {DEARER} times version 1", f"kind {case.rule.kind}, {asked(case.rule)}{laid(case)}", two, DEARER * one
        for case, alone, behind in self.boarded:
            yield f"behind four boards: at most {SETS} ratings", f"kind {case.rule.kind}, {asked(case.rule)}", behind, SETS * alone
        for kind, whole, library in self.wholes() if "whole" in self.ways else ():
            yield "the whole call: at most 20,000 over the rating", f"kind {kind}", whole - library, 20000
        for rule, (worth, works, fails) in self.worths.items():
            yield "a worth: at most 1,000 over its two ratings", f"kind {rule.kind}", worth, works + fails + 1000
        for kind, (ours, plain, case) in self.nearest.items():
            yield "a count table: at most twice (d) and clearing", f"kind {kind}, {asked(case.rule)}{laid(case)}", ours, 2 * plain + CLEARING

    def times_table(self):
        if platform.machine() != "x86_64":
            return "No times: this machine is not x86-64 and runs the programs under an emulator.\n"
        took = {way: [line[2] for line in run([f"{self.room}/{way}", "time"], self.cases)] for way in self.ways}
        rows = [[str(kind), *(comma(took[way][self.at[kind, SIZES[-1]]]) for way in self.ways)] for kind in KINDS]
        return "Nanoseconds a rating at n = 64, medians of 101:\n\n" + table(["kind", *self.ways], rows)

    def text(self):
        return "\n".join((
            f"Measured on {date.today().isoformat()} ({machine()}); the programs agree on {self.agreed:,} cases. Instructions, unless said otherwise.\n",
            self.costs_table(),
            "Kind 6 by figure 1 of document 000 (a'), at n = 8, 16, 32, 64: " + ", ".join(map(comma, self.figure1)) + ".\n",
            "The rules that cost the library most at n = 64, of every k or r:\n",
            self.dearest_table(),
            "Kind 8 at n = 64, by how many of how many in a row must work:\n",
            self.windows_table(),
            "Version 2 at n = 64: the rules of the first table, the dearest, and kind 8:\n",
            self.units_table(),
            "Version 3 at n = 64, the fans on four boards by turns:\n",
            self.boards_table(),
            "The whole call from a file's bytes, at n = 64:\n",
            self.whole_table(),
            "The worth of fan 32, at n = 64:\n",
            self.worths_table(),
            f"Count tables, of each kind and n the dearest rule of all; both ways agree on {self.counted:,}:\n",
            self.counts_table(),
            "Goals:\n",
            goals_table(self.goals()),
            self.times_table(),
        ))


def goals_table(goals):
    """A row a goal: how many cases it is asked of, the one that comes nearest to its limit, and how near; each that misses it has a row of its own."""
    by_goal = {}
    for goal, *case in goals:
        by_goal.setdefault(goal, []).append(case)
    rows = []
    for goal, cases in by_goal.items():
        name, reached, most = max(cases, key=lambda case: case[1] / case[2])
        rows.append([goal, str(len(cases)), name, f"{100 * reached / most:.1f}%", "met" if reached <= most else "missed"])
        rows += [[goal, "", f"{name}: missed", f"{100 * reached / most:.1f}%", ""] for name, reached, most in cases if reached > most]
    return table(["goal at n = 64", "cases", "nearest", "of its limit", ""], rows)


def machine():
    """The processor's name, as Linux tells it, or its family."""
    names = [line.partition(":")[2].strip() for line in open("/proc/cpuinfo") if line.startswith("model name")] if os.path.exists("/proc/cpuinfo") else []
    return f"{platform.machine()}, {names[0]}" if names else platform.machine()


def write(page, text):
    """The page, and its drawings beside it."""
    with open(page, "w") as out:
        out.write(HEAD + "\n" + text)
    plots.draw(page)


def main():
    room, page = sys.argv[1:]
    text = Results(room).text()
    print(text)
    write(page, text)


if __name__ == "__main__":
    main()
