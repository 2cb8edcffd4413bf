"""How many steps it takes to check a certificate, counted as docs/FORMATS.md says ("Steps").

From when to when a message may be committed is found by tests/schedules.py, under the least delays and waits of a box and
under its greatest ones: nothing of the program is used. Where the target may wait, leads are those of the widened box.
"""

import itertools

from schedules import WAIT, of_certificate, times


def nodes_of(text):
    """The lines of a certificate's nodes."""
    lines = text.splitlines()
    heads = [place for place, line in enumerate(lines) if line.split(" ")[0] in ("schedule", "order")]
    return list(itertools.takewhile(lambda line: line != "end", lines[heads[-1] + 1 :]))


def commits(scenario, box):
    """The first and the last tick at which each message may be committed at each of its groups."""
    packets = list(scenario.packets())
    return [times(scenario, packets, ends)[1] for ends in zip(*box)] if box else [times(scenario, [], [])[1]] * 2


def ticks_of_pair(scenario, first, last, pair):
    """At how many ticks a test of leads looks for starts of a message at a group at most: until the target is committed, and
    three for each such pair."""
    ticks = max(0, min(last[scenario.target, scenario.at], last[pair]) + 1 - first[pair])
    return min(3 * len(first), ticks)


def widened_box(scenario, box):
    """The box of the widened scenario that has the members of a box, moved so that the target is issued last."""
    ranges, longer = dict(zip(scenario.packets(), box)), scenario.waits[scenario.target]
    sender = scenario.messages[scenario.target][0]
    soonest, latest = ranges.get((scenario.target, sender, sender, WAIT), (0, 0))
    for packet in scenario.widened().packets():
        least, most = ranges.get(packet, (0, 0))
        yield (least + longer - latest, most + longer - soonest) if packet[3] is WAIT else (least, most)


def steps_of_leads(scenario, named, box, orders):
    """The steps of a lead leaf that names that latency, below so many splits by order."""
    scenario, box = scenario.widened(), list(widened_box(scenario, box))
    first, last = commits(scenario, box)
    _, groups, issue = scenario.messages[scenario.target]
    late = sum(last.get((message, scenario.at), 0) > issue + named for message, _ in first)
    test = sum(1 + ticks_of_pair(scenario, first, last, pair) for pair in first)
    return 1 + len(first) + orders + min(2, 1 + orders) * late * (2 + 2 * len(groups)) * test


def steps_of_node(scenario, node, box, orders):
    """The steps of a node over its box, below so many splits by order."""
    kind, *numbers = node.split(" ")
    pairs = sum(len(to) for _, to, _ in scenario.messages)
    if kind == "o":
        return 1 + orders
    if kind == "p":
        return 1 + len(box) + (pairs * pairs + orders if scenario.real else 0)
    if kind == "t":
        return 1 + len(scenario.messages[scenario.target][1]) * pairs
    if kind == "c":
        return steps_of_leads(scenario, int(numbers[0]), box, orders)
    return 1


def halves(box, packet, at):
    """The two halves of a box, the lower one first. A split that its box does not allow has the same ones."""
    least, most = box[packet]
    return [box[:packet] + [half] + box[packet + 1 :] for half in ((least, at), (at + 1, most))]


def steps_of(text, last=None):
    """The steps of a certificate whose schedule has the stated latency: of its nodes up to the last that is looked at, which
    is the one of that number, or else the last that has a box."""
    scenario, steps = of_certificate(text), 0
    regions = [([(delays.start, delays.stop - 1) for delays in scenario.ranges()], 0)]
    for number, node in enumerate(nodes_of(text)):
        if not regions or last is not None and number > last:
            break
        box, orders = regions.pop()
        steps += steps_of_node(scenario, node, box, orders)
        if node.startswith("s ") and number != last:
            regions += [(half, orders) for half in halves(box, *map(int, node.split(" ")[1:]))][::-1]
        if node.startswith("o ") and number != last:
            regions += [(box, orders + 1)] * 2
    return steps
