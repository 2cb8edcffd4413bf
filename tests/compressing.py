"""Compressed scenarios, and the number that no run through outages is above: written from docs/PROTOCOL.md ("Runs through
outages"). Of the program it asks the greatest latencies of these scenarios, as of any text.
"""

import copy
import functools

from playing import outage_ceiling
from rows import finding
from schedules import WAIT
from support import run

# The greatest D, the longest window, alone or with that of the target, and the last tick at which a target may be issued.
GREATEST_DELAY, LONGEST_WAIT, LATEST = 65_535, 65_535, 1_000_000
# Of what a number may be: of the ceiling through outages, or of a compressed scenario, as it is or by its shortest travel.
CEILING, AS_IT_IS, BY_TRAVEL = "ceiling", "as it is", "by travel"


def having(system, **parts):
    """A scenario with some of its parts in place of its own."""
    other = copy.copy(system)
    vars(other).update(parts)
    return other


def around(system, span):
    """The scenario around its target."""
    is_target = [number == system.target for number in range(len(system.messages))]
    messages = [(sender, to, span * is_it) for (sender, to, _), is_it in zip(system.messages, is_target)]
    return having(system, messages=messages, waits=[0 if is_it else 3 * span for is_it in is_target])


def targets(system):
    """The scenario with each of its messages at each group that it goes to as its target."""
    for number, (_, to, _) in enumerate(system.messages):
        yield from (having(system, target=number, at=group) for group in to)


def windows(system):
    """The first and the last tick at which each message may be issued."""
    return [(at, at + wait) for (_, _, at), wait in zip(system.messages, system.waits)]


def shortest_travel(system):
    """The least delay of all packets that travel."""
    ways = ((sender, to) for _, sender, to, which in system.packets() if which is not WAIT)
    return min((system.links.get(way, (1, system.delay))[0] for way in ways), default=GREATEST_DELAY)


def saved_ticks(factor, span):
    """How many ticks of outages are saved."""
    return span - span // factor


def nearer(window, target, saved):
    """The window of a message of which so many ticks between it and the target may be saved."""
    (first, last), (soonest, latest) = window, target
    return max(min(first, soonest), first - saved), min(max(last, latest), last + saved)


def compressed(system, factor, span):
    """The scenario where each tick of an outage is so many times as short."""
    longer, saved = -(-span // factor), saved_ticks(factor, span)
    moved = [nearer(window, windows(system)[system.target], saved) for window in windows(system)]
    return having(
        system,
        delay=system.delay + longer + (factor > 1),
        links={way: (max(1, least // factor), most + longer) for way, (least, most) in system.links.items()},
        messages=[(sender, to, first) for (sender, to, _), (first, _) in zip(system.messages, moved)],
        waits=[last - first for first, last in moved],
    )


def is_within_limits(system):
    """Whether a scenario may be asked about."""
    longest = system.waits[system.target]
    others = [wait for number, wait in enumerate(system.waits) if number != system.target]
    has_room = windows(system)[system.target][1] <= LATEST and all(wait + longest <= LONGEST_WAIT for wait in others)
    return system.delay <= GREATEST_DELAY and max(system.waits) <= LONGEST_WAIT and has_room


@functools.lru_cache(None)
def most_of(text, *words):
    """What `latency` tells that no latency of a scenario is above."""
    return int(finding(run(["latency", *words], text).out)["most"])


def numbers(system, span, words=()):
    """Numbers that no latency is above in runs through outages of so many ticks in all: of the ceiling, and in real time of
    compressed scenarios, by searches with these words."""
    yield CEILING, outage_ceiling(system, system.target, system.at, span)
    shortest = shortest_travel(system)
    for name, factor in ((AS_IT_IS, 1), (BY_TRAVEL, shortest)):
        other = compressed(system, factor, span)
        if system.real and (name is AS_IT_IS or shortest > 1) and is_within_limits(other):
            yield name, most_of(other.text(), *words) + saved_ticks(factor, span)


def outage_latency(system, span, words=()):
    """The least of these."""
    return min(number for _, number in numbers(system, span, words))
