"""Document 02's request 10, "Doubles to and from the planning office", in plain Python.

A double is its 64 bits throughout, and its value the exact fraction that Python reads out of them.
"""

import struct
from fractions import Fraction
from math import ceil, floor, nextafter

from second.model.deck_file import file_refusal, number_at, read_deck
from second.model.figures import low_and_high
from second.model.loading import bad_system, rate_system
from second.model.refusals import bad_rule, bad_weights, place_refusal
from second.model.terms import HEADER_BYTES, TABLE_CELLS, UNIT, UNITS, Refusal

ONE = 2 ** 1074  # document 02, request 10: "parts in 2^1074"


def double(bits):
    return struct.unpack("<d", struct.pack("<Q", bits))[0]


def bits_of(number):
    return struct.unpack("<Q", struct.pack("<d", number))[0]


def value(bits):
    return Fraction(double(bits))


def own_value(bits):
    """The same as a whole number, from the three fields: sign, exponent, fraction."""
    # document 02, request 10: "the whole number of parts in 2^1074 that its 64 bits spell"
    exponent, fraction = bits >> 52 & 2 ** 11 - 1, bits & 2 ** 52 - 1
    size = (2 ** 52 + fraction) << exponent - 1 if exponent else fraction
    return -size if bits >> 63 else size


# ---- coming in ---------------------------------------------------------------


def is_chance(bits):
    # document 02, request 10: "a survival chance is a float from 0 to 1", "Negative zero is 0"; a NaN is neither
    return 0 <= double(bits) <= 1


def just_below(bits):
    # document 02, request 10: "times 2^30 (exact too) it becomes the whole number just below"
    return floor(value(bits) * UNIT)


def just_above(bits):
    # document 02, request 10: "and the one just above, equal where nothing is lost"
    return ceil(value(bits) * UNIT)


def on_grid(bits):
    return (value(bits) * UNIT).denominator == 1


def planned_refusal(rule, a, b, doubles, weights, room):
    # document 02, request 10: the figures' order with "18 .. in the place of 4; 19 .. after 6"
    n = len(doubles)
    number = place_refusal(rule, a, b, n)
    if number:
        return number
    rated, rated_weights = doubles[a - 1:b], weights[a - 1:b]
    if not all(map(is_chance, rated)):
        return 18
    if bad_weights(rule, n, weights, rated_weights):
        return 5
    if bad_rule(rule, b - a + 1, rated_weights):
        return 6
    # document 02, request 10: "Kind 3 is answered only where every float is on the grid"
    if rule.kind == 3 and not all(map(on_grid, rated)):
        return 19
    return 7 if room < TABLE_CELLS else None


def planned(rule, a, b, doubles, weights, room=TABLE_CELLS):
    # document 02, request 10: "Low comes from the lower list and high from the upper"
    number = planned_refusal(rule, a, b, doubles, weights, room)
    if number:
        return Refusal(number)
    lower, upper = ([whole(bits) for bits in doubles[a - 1:b]] for whole in (just_below, just_above))
    return low_and_high(rule, lower, weights[a - 1:b])[0], low_and_high(rule, upper, weights[a - 1:b])[1]


# ---- going out ---------------------------------------------------------------


def chance(data, system):
    """Low and high as fractions of 1, or the refusal."""
    # document 02, request 10: "low and high of a version 1 deck are each divided by 2^30"; another version is 11, which stands before all but the
    # first 10
    if len(data) >= HEADER_BYTES and number_at(data, 0, 2) != 1:
        return Refusal(11)
    number = file_refusal(data)
    if number:
        return Refusal(number)
    deck = read_deck(data)
    if bad_system(deck, system):
        return Refusal(14)
    answer = rate_system(deck, deck.systems[system - 1])
    return answer if isinstance(answer, Refusal) else tuple(Fraction(end, UNIT) for end in answer)


# ---- between two doubles, for files of every version ---------------------------


def double_below(fraction):
    """The largest double that is at most a fraction from 0 to 1: the one that Python rounds it to, or the one before."""
    near = float(fraction)
    return near if Fraction(near) <= fraction else nextafter(near, -1)


def double_above(fraction):
    """The smallest double that is at least a fraction from 0 to 1."""
    near = float(fraction)
    return near if Fraction(near) >= fraction else nextafter(near, 2)


def chance_between(data, system):
    """The doubles nearest about low and high, each over the file's unit, or the refusal of the loading computer's call."""
    deck = read_deck(data)
    if isinstance(deck, Refusal):
        return deck
    if bad_system(deck, system):
        return Refusal(14)
    answer = rate_system(deck, deck.systems[system - 1])
    if isinstance(answer, Refusal):
        return answer
    low, high = (Fraction(end, UNITS[deck.version]) for end in answer)
    return double_below(low), double_above(high)
