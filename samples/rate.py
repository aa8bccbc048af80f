"""Reads a deck file and prints its systems from Python, as rate.c does: rate.py FILE"""

import sys

import foambeetle


def line(deck, system):
    try:
        rated = foambeetle.rate(deck, system)
    except foambeetle.Refused as refused:
        return f"refused {refused.number}"
    return f"low {rated.low} high {rated.high}"


def main(name):
    with open(name, "rb") as file:
        deck = file.read()
    try:
        systems = foambeetle.Deck.parse(deck).systems
    except foambeetle.Refused as refused:
        print("file refused", refused.number)
        return 1
    for system in range(1, len(systems) + 1):
        print("system", system, line(deck, system))
    return 0


if __name__ == "__main__":
    sys.exit(main(*sys.argv[1:]) if len(sys.argv) == 2 else "usage: rate.py FILE")
