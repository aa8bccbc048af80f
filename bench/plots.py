"""Draws docs/bench-results.md: the cost of a rating over n for each kind beside its peers, and what version 2 costs in times version 1. The numbers are those of
the page's own tables.

    python3 -m bench.plots PAGE
"""

import re
import sys
from math import log2, log10
from pathlib import Path
from typing import NamedTuple

LIMIT = 1.6  # the goal for version 2
LABELS = {"library": "Foambeetle", "(a)": "(a) plain doubles", "(b)": "(b) doubles, both roundings", "(c)": "(c) exact fractions", "(c')": "(c') exact whole numbers",
          "(e)": "(e) doubles, patterns listed", "(f)": "(f) doubles, patterns tested"}
COLOURS = {"library": "#000000", "(a)": "#0072b2", "(b)": "#56b4e9", "(c)": "#d55e00", "(c')": "#e69f00", "(e)": "#0072b2", "(f)": "#56b4e9"}
WIDTH, HEIGHT, ACROSS, LEFT, BELOW, ABOVE = 230, 190, 4, 44, 30, 26
BAR, NAMED, LONG = 15, 230, 380


class Panel(NamedTuple):
    """A small drawing: its title, what runs across, where each number stands there, and a line of costs for each way."""

    title: str
    across: str
    at: list
    marks: list
    lines: dict


def number(text):
    return float(text.replace(",", ""))


def tables(page):
    """The page's tables, each as rows by their heads."""
    for block in re.findall(r"(?:^\|.*\n)+", page.read_text(), re.M):
        heads, _, *rows = ([cell.strip() for cell in line.strip().strip("|").split("|")] for line in block.splitlines())
        yield heads, [dict(zip(heads, row)) for row in rows]


def panels(found):
    """A panel for each kind of the first table, and one for kind 8 over how many of ten must work."""
    heads, rows = next((heads, rows) for heads, rows in found if "growth" in heads and "(a)" in heads)
    ways = [head for head in heads if head in LABELS]
    for kind in dict.fromkeys(row["kind"] for row in rows):
        own = [row for row in rows if row["kind"] == kind]
        yield Panel(f"kind {kind}", "n", [log2(number(row["n"])) for row in own], [row["n"] for row in own],
                    {way: [number(row[way]) for row in own] for way in ways if own[0][way] != "-"})
    heads, rows = next((heads, rows) for heads, rows in found if "at least" in heads)
    own = [row for row in rows if re.fullmatch(r"\d+ of 10", row["at least"])]
    least = [row["at least"].split()[0] for row in own]
    yield Panel("kind 8, n = 64", "at least so many of 10", list(map(float, least)), least, {way: [number(row[way]) for row in own] for way in heads if way in LABELS})


def text(x, y, words, anchor="middle", size=11, more=""):
    return f'<text x="{x:.1f}" y="{y:.1f}" text-anchor="{anchor}" font-size="{size}"{more}>{words}</text>'


def drawn(panel, x, y):
    """A panel with its left upper corner there; the costs run upwards by powers of ten."""
    costs = [cost for line in panel.lines.values() for cost in line]
    low, high = int(log10(min(costs))), int(log10(max(costs))) + 1
    width, height = WIDTH - LEFT - 16, HEIGHT - BELOW - ABOVE
    across = [x + LEFT + width * (at - panel.at[0]) / (panel.at[-1] - panel.at[0]) for at in panel.at]
    up = lambda cost: y + ABOVE + height * (high - log10(cost)) / (high - low)  # noqa: E731
    yield text(x + LEFT + width / 2, y + 16, panel.title, size=13)
    for power in range(low, high + 1):
        yield f'<path d="M{x + LEFT} {up(10 ** power):.1f}h{width}" stroke="#cccccc" stroke-width="0.7"/>'
        yield text(x + LEFT - 5, up(10 ** power) + 4, f"10^{power}", "end")
    for place, mark in zip(across, panel.marks):
        yield text(place, y + HEIGHT - BELOW + 14, mark)
    yield text(x + LEFT + width / 2, y + HEIGHT - 4, panel.across)
    for way, line in panel.lines.items():
        points = " ".join(f"{place:.1f},{up(cost):.1f}" for place, cost in zip(across, line))
        yield f'<polyline points="{points}" fill="none" stroke="{COLOURS[way]}" stroke-width="{2.2 if way == "library" else 1.4}"/>'


def page_of(width, height, parts):
    head = f'<svg xmlns="http://www.w3.org/2000/svg" viewBox="0 0 {width} {height}" font-family="sans-serif">'
    return "\n".join([head, f'<rect width="{width}" height="{height}" fill="#ffffff"/>', *parts, "</svg>"]) + "\n"


def costs_drawing(found):
    """All panels, four across, and what each line is."""
    every = list(panels(found))
    parts = [part for place, panel in enumerate(every) for part in drawn(panel, WIDTH * (place % ACROSS), HEIGHT * (place // ACROSS))]
    rows = -(-len(every) // ACROSS)
    for place, way in enumerate(way for way in LABELS if any(way in panel.lines for panel in every)):
        x, y = 20 + (WIDTH + 60) * (place % 3), HEIGHT * rows + 18 + 18 * (place // 3)
        parts += [f'<path d="M{x} {y - 4}h24" stroke="{COLOURS[way]}" stroke-width="2.2"/>', text(x + 30, y, LABELS[way], "start", 12)]
    return page_of(WIDTH * ACROSS, HEIGHT * rows + 70, parts)


def units_drawing(found):
    """A bar for each rule: what version 2 costs in times version 1, and the goal."""
    rows = next(rows for heads, rows in found if "times version 1" in heads)
    parts = [text(NAMED + LONG / LIMIT, 16, "version 1"), text(NAMED + LONG, 16, f"at most {LIMIT}")]
    for place, row in enumerate(rows):
        y, times = 24 + BAR * place, number(row["times version 1"])
        parts += [text(NAMED - 6, y + 11, f"kind {row['kind']}, {row['rule']}", "end"),
                  f'<rect x="{NAMED}" y="{y + 2}" width="{LONG * times / LIMIT:.1f}" height="{BAR - 4}" fill="#56b4e9"/>',
                  text(NAMED + LONG * times / LIMIT - 4, y + 11, row["times version 1"], "end", 10)]
    tall = 24 + BAR * len(rows)
    parts += [f'<path d="M{at:.1f} 20V{tall}" stroke="#000000" stroke-width="0.8" stroke-dasharray="{dash}"/>' for at, dash in ((NAMED + LONG / LIMIT, 3), (NAMED + LONG, 0))]
    return page_of(NAMED + LONG + 60, tall + 8, parts)


def draw(page):
    """Both drawings, beside the page."""
    page = Path(page)
    found = list(tables(page))
    (page.parent / "bench-costs.svg").write_text(costs_drawing(found))
    (page.parent / "bench-units.svg").write_text(units_drawing(found))


if __name__ == "__main__":
    draw(*sys.argv[1:])
