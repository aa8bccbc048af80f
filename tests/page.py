"""deckpage's pages against the second program: every text on them, and every bar, by what deckworth prints; and in a browser, Debian's Chromium: no text is cut,
none lies over another at 360 and at 1,200 pixels of width, and on paper a page is two sheets at most. Where there is no Chromium to be had, the browser's part
is left out, and a line says so."""

import html
import json
import random
import re
import shutil
import subprocess
import sys
import xml.etree.ElementTree as tree

from second.model.deck_file import deck_bytes
from second.model.page import page_of
from second.model.terms import BOARDS_VERSION, UNITS, Boards, Deck, Rule, System
from second.samples.files import DAMAGES, VERSIONS, random_deck
from tests.common import DONE, PAGER, REFUSED, compare, decks, linked, mapped, room, run

RANDOM = 12  # of each version
DAMAGED = 8
WIDTHS = (360, 1200)
SHEETS = 2
PATIENCE = 300  # seconds, for one look
PLANTED = f"<!DOCTYPE html><html><body><p style='white-space:nowrap'>{'cut ' * 400}</p></body></html>"
FAN, SHIFTS = 10, {"lower": 1, "upper": 5}
TALLEST = {True: 9500, False: 4750}  # of many fans and of few, in hundredths
MANY = 32
SVG = "{http://www.w3.org/2000/svg}"


def full_deck(rng, stretches):
    """64 fans behind four boards, and 32 systems: every kind in turn over these stretches, and one that is refused."""
    unit = UNITS[BOARDS_VERSION]
    rules = (Rule(1, 5, 0), Rule(2, 8, 0), Rule(3, 2, 5), Rule(4, 3, 0), Rule(5, 3, 0), Rule(6, 2, 5), Rule(7, 2, 4), Rule(8, 8, 10))
    systems = [System(rules[at % len(rules)], *stretch) for at, stretch in enumerate(stretches)]
    systems.append(System(Rule(4, 70, 0), 1, 64))
    fans = [unit - rng.randint(1, 30_000_000) for _ in range(64)]
    boards = Boards([rng.randint(0, 4) for _ in range(64)], [unit - rng.randint(1, 100_000) for _ in range(4)])
    return deck_bytes(Deck(fans, [fan % 3 for fan in range(64)], systems, BOARDS_VERSION, boards))


def hardest():
    """Every kind over the whole deck, and then over long stretches."""
    rng = random.Random(3)
    return full_deck(rng, [(1, 64)] * 8 + [(a, rng.randint(a + 12, 64)) for _ in range(23) for a in [rng.randint(1, 29)]])


def quickest():
    """Kind 1 over the whole deck, and every kind over short stretches, since the second program takes half a minute for the hardest."""
    rng = random.Random(4)
    return full_deck(rng, [(1, 64)] + [(a, a + rng.randint(9, 15)) for _ in range(30) for a in [rng.randint(1, 49)]])


def inputs(rng):
    yield from (deck.read_bytes() for deck in decks())
    yield quickest()
    for version in VERSIONS:
        yield from (deck_bytes(random_deck(rng, version)) for _ in range(RANDOM))
        yield from (rng.choice(DAMAGES)(rng, deck_bytes(random_deck(rng, version))) for _ in range(DAMAGED))


def plain(element):
    return " ".join("".join(element.itertext()).split())


def bars(section, name):
    """Where the bars of one end begin, and how tall they are in hundredths, down from the line below 0."""
    paths = [path for path in section.iter("path") if path.get("class") == name]
    drawn = re.findall(r"M(\d+) \d+v(-?\d+)e-2h4V\d+z", paths[0].get("d")) if paths else []
    return [(int(x), -int(height)) for x, height in drawn]


def wanted_bars(worths, end):
    """The same by deckworth's figures: the largest end is the tallest."""
    ends = [pair[end] if pair else 0 for pair in worths]
    largest = max((abs(x) for pair in worths if pair for x in pair), default=0)
    tall = len(worths) > MANY
    shift = SHIFTS[("lower", "upper")[end]]
    heights = [(abs(x) * TALLEST[True] // largest // (1 if tall else 2)) * (1 if x > 0 else -1) for x in ends if x]
    return list(zip((at * FAN + shift for at, x in enumerate(ends) if x), heights, strict=True))


def seen(text):
    """A page that is well-formed: its heading, and of each system its texts and bars."""
    page = tree.fromstring(text)
    sections = page.findall(".//section")
    heading = plain(page.find(".//h1"))
    parts = [[plain(part) for part in section.iter() if part.tag in ("h2", "p", "text", "li")] for section in sections]
    return heading, [(texts, bars(section, "lower"), bars(section, "upper")) for texts, section in zip(parts, sections, strict=True)]


def wanted(data):
    heading, cards = page_of(data)
    return heading, [(card.texts, wanted_bars(card.worths, 0), wanted_bars(card.worths, 1)) for card in cards]


# Every piece of text by where it stands, and the drawing that it belongs to: what lies outside the page or its drawing, and what lies over another.
LOOK = """
function look(frame) {
  const inner = frame.contentDocument, wrong = [], boxes = [];
  const walk = inner.createTreeWalker(inner.body, NodeFilter.SHOW_TEXT);
  for (let node = walk.nextNode(); node; node = walk.nextNode()) {
    if (!node.data.trim()) continue;
    const range = inner.createRange();
    range.selectNodeContents(node);
    const drawing = node.parentElement.closest('svg');
    const bounds = drawing ? drawing.getBoundingClientRect() : {left: 0, right: frame.clientWidth};
    for (const box of range.getClientRects()) {
      if (box.left < bounds.left - 1 || box.right > bounds.right + 1 || (drawing && (box.bottom > bounds.bottom + 3))) wrong.push('cut: ' + node.data);
      for (const other of boxes)
        if (box.left < other.box.right - 1 && other.box.left < box.right - 1 && box.top < other.box.bottom - 3 && other.box.top < box.bottom - 3)
          wrong.push('over another: ' + node.data + ' / ' + other.text);
      boxes.push({box, text: node.data});
    }
  }
  if (inner.documentElement.scrollWidth > frame.clientWidth) wrong.push('wider than the page');
  return boxes.length ? wrong.slice(0, 5) : ['no text'];
}
window.onload = () => { document.body.dataset.wrong = JSON.stringify([...document.querySelectorAll('iframe')].map(look)); };
"""


def browser():
    """The words that start Chromium, installed from Debian where it is missing; None where it cannot be had or does not start."""
    if not shutil.which("chromium"):
        run(["sh", "-c", "{ apt-get update && DEBIAN_FRONTEND=noninteractive apt-get install -y --no-install-recommends chromium; } >&2 || true"])
    words = ["chromium", "--headless", "--no-sandbox", "--disable-gpu", "--disable-dev-shm-usage", "--hide-scrollbars", "--virtual-time-budget=5000"]
    try:
        return words if b"looked" in looking(words, "--dump-dom", "data:text/html,<p>looked</p>") else None
    except (OSError, subprocess.SubprocessError):
        return None


def looking(words, *more):
    return run([*words, *more], stderr=subprocess.DEVNULL, timeout=PATIENCE)


def looked_at(words, pages):
    """What is wrong with each page at each width, by its name and the width; all in frames of one page, since the browser takes long to start."""
    outer, frames = room / "frames.html", [(name, width) for name in pages for width in WIDTHS]
    outer.write_text("<!DOCTYPE html><body>" + "".join(
        f"<iframe width='{width}' height='20000' style='border:0' srcdoc='{html.escape(pages[name])}'></iframe>" for name, width in frames
    ) + f"<script>{LOOK}</script></body>")
    found = re.search(r'data-wrong="([^"]*)"', looking(words, "--dump-dom", f"file://{outer}").decode())
    told = json.loads(html.unescape(found.group(1))) if found else [["nothing was measured"]] * len(frames)
    return dict(zip(frames, told, strict=True))


def on_paper(words, name, text):
    """What is wrong with a page on paper."""
    page, paper = room / f"{name}.html", room / f"{name}.pdf"
    page.write_text(text)
    looking(words, "--no-pdf-header-footer", f"--print-to-pdf={paper}", f"file://{page}")
    sheets = len(re.findall(rb"/Type\s*/Page\b", paper.read_bytes()))
    return [] if 1 <= sheets <= SHEETS else [f"{name}: {sheets} sheets"]


def drawn(pager, data):
    """The page of a file; that of a refused one has its status too."""
    done = subprocess.run(pager, input=data, stdout=subprocess.PIPE)
    page = done.stdout.decode()
    assert done.returncode == (REFUSED if "<title>Deck file refused</title>" in page else DONE), done
    return page


def in_browser(pager):
    words = browser()
    if not words:
        print("no Chromium here: pages were not looked at in a browser")
        return True
    room.mkdir(parents=True, exist_ok=True)
    files = {deck.stem: deck.read_bytes() for deck in decks()} | {"hardest": hardest(), "refused": b""}
    pages = {name: drawn(pager, data) for name, data in files.items()}
    told = looked_at(words, pages | {"planted": PLANTED})
    if not all(told.pop(("planted", width)) for width in WIDTHS):
        print("a page with a line that is cut was not found wrong")
        return False
    wrong = [f"{name} at {width}: {line}" for (name, width), lines in told.items() for line in lines]
    wrong += [line for name, text in pages.items() for line in on_paper(words, name, text)]
    print("\n".join([*wrong, f"{len(files)} pages looked at, {len(WIDTHS)} widths and paper each: {len(wrong)} things wrong"]))
    return not wrong


def main():
    pager, files = linked(PAGER), list(inputs(random.Random(31)))
    got = [seen(page) for page in mapped(lambda data: drawn(pager, data), files)]
    good = compare("pages by deckpage", got, [wanted(data) for data in files])
    return 0 if in_browser(pager) and good else 1


if __name__ == "__main__":
    sys.exit(main())
