"""Durations: how long ticks are, and how lengths of time are told in texts.

This is written from docs/FORMATS.md, "Durations", and shares nothing with the program.
"""

import functools
import math
import re

# How many nanoseconds a unit has, from the greatest unit to the least.
UNITS = {"s": 1_000_000_000, "ms": 1_000_000, "us": 1_000, "ns": 1}
# The longest duration, in nanoseconds, and of how many of its unit a tick is at most.
LONGEST = 10**15
MOST_UNITS = 4_294_967_295
# The delay of a scenario text where it is a duration.
UNIT_OF_DELAY = re.compile(r'(?m)^delay = "[\d. ]*([a-z]+)"$')


def unit_of(length):
    """The greatest unit that divides a length of so many nanoseconds."""
    return next(unit for unit, size in UNITS.items() if length % size == 0)


def written(length):
    """A length as it is written in answers."""
    unit = unit_of(length)
    return f"{length // UNITS[unit]} {unit}"


def unit_of_times(text, delay, tick):
    """The unit in which times of a scenario are told where none is asked for: that of its text's own delay, or else the
    greatest of which D, so many ticks of this length, is a whole number."""
    own = UNIT_OF_DELAY.search(text)
    return own.group(1) if own else unit_of(delay * tick)


def in_unit(length, unit):
    """The shortest number that tells a length in a unit."""
    whole, rest = divmod(length, UNITS[unit])
    digits = len(str(UNITS[unit])) - 1
    return f"{whole}.{rest:0{digits}}".rstrip("0") if rest else str(whole)


def spelled(chance, length):
    """A text of a scenario that tells a length, as people may write it: in any unit, with or without a space, and now and
    then with zeros that say nothing."""
    unit = chance.choice(list(UNITS))
    number = in_unit(length, unit)
    if chance.random() < 0.3:
        number = "0" * chance.randint(1, 3) + number
    if chance.random() < 0.3:
        number += ("" if "." in number else ".") + "0" * chance.randint(1, 12)
    return f'"{number}{chance.choice(["", " "])}{unit}"'


def common_length(lengths):
    """How long a tick is where all times are durations and the key is absent."""
    return max(1, functools.reduce(math.gcd, lengths, 0))
