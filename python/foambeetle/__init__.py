"""How likely it is that a deck's fans last the voyage: Foambeetle's proved libraries from Python.

    import foambeetle

    deck = open("hold1.deck", "rb").read()
    foambeetle.rate(deck, 2)                   # Range(low=1070111303, high=1070111326, unit=1073741824)
    foambeetle.rate(deck, 2).percent           # '99.661881% to 99.661884%'
    foambeetle.worth(deck, 2, 1)               # what fan 1 is worth to system 2
    foambeetle.chance_between(deck, 2)         # the two doubles nearest about it
    foambeetle.Deck.parse(deck).systems        # what stands in the file
    foambeetle.Deck(1, [2 ** 29], [0], [foambeetle.System(1, 1, 0, 1, 1)]).dump()

Every answer is the library's. A call raises `Refused`, with the refusal's number and what it says, or ValueError where a number does not fit the
bits that C has for it. Systems and fans are counted from 1. The calls keep nothing and may run in several threads at once.
"""

from .calls import chance, chance_between, gain, rate, rate_doubles, unit, worth, write
from .deck import Deck, System
from .figures import Chance, Difference, Range
from .libraries import NotFound
from .refusals import WORDS, Refused

__version__ = "1.1.0"
__all__ = ["Chance", "Deck", "Difference", "NotFound", "Range", "Refused", "System", "WORDS", "chance", "chance_between", "gain", "rate", "rate_doubles",
           "unit", "worth", "write"]
