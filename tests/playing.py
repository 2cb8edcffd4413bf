"""Traffic that runs through outages, event by event, and the ceilings of it: written from docs/PROTOCOL.md ("Outages"), and sharing
nothing with the program; with tests/schedules.py only how a scenario is told.
"""

import heapq
import itertools

from schedules import CLIENT

# What comes to a group, in the fixed order of one tick.
MESSAGE, STAMP, COMMIT = range(3)


def between(system, sender, to):
    """The least and the greatest delay of a message."""
    return system.links.get((sender, to), (0, 0) if sender == to else (1, system.delay))


def stamp_between(system, sender, to):
    """The same of a stamp."""
    return (0, 0) if sender == to and to not in system.stamps else between(system, sender, to)


def longest_to_commit(system, kind, group):
    """The longest from the issue of a message to its commit at a group."""
    sender, to, _ = system.messages[kind]
    return max(between(system, sender, via)[1] + stamp_between(system, via, group)[1] for via in to)


def kinds_to(system, group):
    """The kinds that go to a group."""
    return [kind for kind, (_, to, _) in enumerate(system.messages) if group in to]


def plain_ceiling(system, kind, group):
    """The ceiling without outages."""
    after = [longest_to_commit(system, rival, group) - between(system, system.messages[rival][0], group)[0] for rival in kinds_to(system, group)]
    return longest_to_commit(system, kind, group) + max(after)


def outage_ceiling(system, kind, group, span):
    """The ceiling through outages of so many ticks in all."""
    return longest_to_commit(system, kind, group) + max(longest_to_commit(system, rival, group) for rival in kinds_to(system, group)) + span


class Outages:
    """When which groups are silent: (group, first tick, tick after the last)."""

    def __init__(self, windows):
        self.windows = sorted(windows, key=lambda window: window[1])

    def speaks_at(self, group, time):
        """The first tick from a time on at which a group is not silent."""
        for silent, first, after in self.windows:
            if silent == group and first <= time < after:
                return self.speaks_at(group, after)
        return time

    def down(self):
        """The ticks at which some group is silent."""
        return {tick for _, first, after in self.windows for tick in range(first, after)}


class Group:
    """A group that gives stamps and orders messages by them."""

    def __init__(self, number):
        self.number, self.clock = number, 0
        self.local, self.heard, self.final = {}, {}, {}

    def stamp(self, message):
        """The stamp of a message that arrives."""
        self.clock += 1
        self.local[message] = (self.clock, self.number)
        return self.local[message]

    def has_all(self, message, to):
        """Whether the stamps of all groups are there, which the message has come to."""
        return message in self.local and len(self.heard.get(message, ())) == len(to)

    def commit(self, message):
        """A message gets its final stamp."""
        self.final[message] = max(self.heard[message].values())
        self.clock = max(self.clock, self.final[message][0])

    def may_deliver(self, message):
        """Whether a message is committed, and none that is not has a lesser stamp."""
        mine = self.final.get(message)
        return mine is not None and all(stamp > mine for other, stamp in self.local.items() if other not in self.final)


class Play:
    """A run of traffic, of which the first message is the target. `takes` answers how long a packet takes, whether it is held up
    while some group is silent, and its turn among those that come at once."""

    def __init__(self, system, messages, windows, takes):
        self.system, self.messages, self.takes = system, messages, takes
        self.outages = Outages(windows)
        self.down = self.outages.down()
        self.groups = [Group(number) for number in range(system.groups)]
        self.coming, self.turns = [], itertools.count()
        for message, (sender, to, at) in enumerate(messages):
            for group in to:
                self.send(at, MESSAGE, message, sender, group, None)

    def send(self, time, kind, message, sender, group, stamp):
        """A packet goes, as soon as its sender is not silent, and comes once its receiver is not."""
        bounds = (between if kind == MESSAGE else stamp_between)(self.system, sender, group)
        way, is_held, turn = self.takes((kind, message, sender, group), bounds)
        left = time if sender is CLIENT else self.outages.speaks_at(sender, time)
        came = self.after(left, way) if is_held else left + way
        self.put((self.outages.speaks_at(group, came), kind, turn), message, group, stamp)

    def after(self, time, ticks):
        """When so many ticks are over at which no group is silent."""
        while ticks:
            ticks -= time not in self.down
            time += 1
        return time

    def put(self, when, message, group, stamp):
        """Something happens at a group."""
        heapq.heappush(self.coming, (self.place(when, message, group), next(self.turns), when, message, group, stamp))

    def place(self, when, message, group):
        """Where that stands in the order of all: of what happens at one tick, messages come first, and commits last."""
        return when

    def act(self, time, kind, message, group, stamp):
        """A group does what it has to."""
        here, (_, to, _) = self.groups[group], self.messages[message]
        if kind == COMMIT:
            here.commit(message)
            return
        if kind == MESSAGE:
            stamp = here.stamp(message)
            for other in to:
                self.send(time, STAMP, message, group, other, stamp)
            return
        here.heard.setdefault(message, {})[stamp[1]] = stamp
        if here.has_all(message, to):
            self.put((time, COMMIT, 0), message, group, None)

    def latency(self):
        """From the issue of the target to its delivery at the group that is asked about."""
        at = self.system.at
        while self.coming:
            _, _, (time, kind, _), message, group, stamp = heapq.heappop(self.coming)
            self.act(time, kind, message, group, stamp)
            if kind == COMMIT and group == at and self.groups[at].may_deliver(0):
                return time - self.messages[0][2]
        raise AssertionError("the target is never delivered")
