"""Runs of small scenarios in real time, event by event, and the traces that tell of them.

This is written from docs/PROTOCOL.md and docs/FORMATS.md, and shares nothing with the program; with tests/schedules.py only how a
scenario is told. Groups act on each message and on each proposal as it comes to them, and no time has a closed form.
"""

import collections
import heapq
import json
import re
import typing

from lengths import in_unit, spelled
from schedules import CLIENT, MESSAGE, PROPOSAL, WAIT, name_of

ISSUE, ARRIVAL, COMMIT, DELIVERY = "issue", "arrival", "commit", "delivery"
# What comes to a group at one instant, in the fixed order.
COMING = (ARRIVAL, PROPOSAL, COMMIT)
# The columns that each table has, and those that it has where something stands there.
NEEDED, OPTIONAL = ("event", "message", "group", "time"), ("from", "stamp")
NUMBER = re.compile(r"\d+(\.\d+)?")
# What stands in a trace between its lines, and says nothing.
PASSED_OVER = ("", "  ", "# a line that says nothing", "#,m0", ",,", ' ,"" ')


class Event(typing.NamedTuple):
    """What happens to a message: at which group, from which one where it is a proposal, when, and with which stamp."""

    kind: str
    message: int
    group: int | None
    sender: int | None
    time: int
    stamp: tuple | None

    def is_same(self, other):
        """Whether both tell the same event, whatever its time and its stamp."""
        return self[:4] == other[:4]


class Group:
    """A group by the rules of docs/PROTOCOL.md: its clock, the local and the final stamps of messages, the proposals that have
    come, and what it has delivered."""

    def __init__(self, number):
        self.number, self.clock = number, 0
        self.local, self.final, self.delivered = {}, {}, set()
        self.heard = collections.defaultdict(dict)

    def arrive(self, message):
        """A message comes, and gets its local stamp."""
        self.clock += 1
        self.local[message] = (self.clock, self.number)

    def hear(self, message, sender, stamp):
        """A proposal comes, also before the message itself."""
        self.heard[message][sender] = stamp

    def may_commit(self, message, to):
        """Whether the message is here, with the proposals of all its groups."""
        return message in self.local and len(self.heard[message]) == len(to)

    def commit(self, message):
        """The message gets its final stamp."""
        self.final[message] = max(self.heard[message].values())
        self.clock = max(self.clock, self.final[message][0])

    def is_held_back(self, stamp):
        """Whether a message that is not committed here has a local stamp below that final one."""
        return any(other < stamp for message, other in self.local.items() if message not in self.final)

    def deliver(self):
        """The messages that become free, in the order of their final stamps."""
        for stamp, message in sorted((stamp, message) for message, stamp in self.final.items()):
            if message not in self.delivered and not self.is_held_back(stamp):
                self.delivered.add(message)
                yield message


class Play:
    """The events of a run of a scenario, by what each of its waits and packets takes. What happens at one instant is in the fixed
    order, or by chance, where that is given, in any in which a message arrives before it is committed."""

    def __init__(self, scenario, takes, chance=None, group=Group):
        self.scenario, self.takes, self.chance = scenario, takes, chance
        self.groups = [group(number) for number in range(scenario.groups)]
        self.events, self.coming = [], []
        for message, (sender, to, at) in enumerate(scenario.messages):
            issued = at + takes.get((message, sender, sender, WAIT), 0)
            self.events.append(Event(ISSUE, message, CLIENT, CLIENT, issued, None))
            for number in to:
                self.send(issued + takes.get((message, sender, number, MESSAGE), 0), ARRIVAL, message, number)
        while self.coming:
            self.act(*heapq.heappop(self.coming))

    def send(self, time, kind, message, number, sender=-1):
        """Something will happen at a group."""
        turn = self.chance.random() if self.chance else 0
        heapq.heappush(self.coming, (time, turn, COMING.index(kind), message, number, sender))

    def tell(self, kind, message, number, time, stamp, sender=CLIENT):
        """Something happens at a group."""
        self.events.append(Event(kind, message, number, sender, time, stamp))

    def act(self, time, _, which, message, number, sender):
        """A group does what it has to do as that comes to it."""
        kind, group, (_, to, _) = COMING[which], self.groups[number], self.scenario.messages[message]
        if kind == ARRIVAL:
            self.arrive(time, group, message, to)
        elif kind == PROPOSAL:
            stamp = self.groups[sender].local[message]
            group.hear(message, sender, stamp)
            self.tell(PROPOSAL, message, number, time, stamp, sender)
        else:
            group.commit(message)
            self.tell(COMMIT, message, number, time, group.final[message])
        if kind != COMMIT and group.may_commit(message, to):
            self.send(time, COMMIT, message, number)
        for free in group.deliver():
            self.tell(DELIVERY, free, number, time, group.final[free])

    def arrive(self, time, group, message, to):
        """A group proposes the stamp that a message gets there: to others by packets, and to itself at once, unless its link
        to itself is for stamps."""
        group.arrive(message)
        stamp = group.local[message]
        self.tell(ARRIVAL, message, group.number, time, stamp)
        if group.number not in self.scenario.stamps:
            group.hear(message, group.number, stamp)
            self.tell(PROPOSAL, message, group.number, time, stamp, group.number)
        for other in to:
            if other != group.number or other in self.scenario.stamps:
                self.send(time + self.takes[message, group.number, other, PROPOSAL], PROPOSAL, message, other, group.number)

    def has_ties(self):
        """Whether two messages arrive at a group, or are committed there, at one instant."""
        at_once = collections.defaultdict(set)
        for event in self.events:
            if event.kind in (ARRIVAL, COMMIT):
                at_once[event.group, event.time].add(event.message)
        return any(len(messages) > 1 for messages in at_once.values())


class Scale(typing.NamedTuple):
    """How times are told: how many fine ticks a tick has, how many nanoseconds, and the unit. Where the length of a tick is not
    known there is no unit, and a tick counts as a second."""

    parts: int
    tick: int
    unit: str | None

    def length(self, fine):
        """So many fine ticks in nanoseconds."""
        return fine * self.tick // self.parts

    def told(self, fine):
        """So many fine ticks, as answers tell them."""
        return f"{in_unit(self.length(fine), self.unit or 's')} {self.unit or 'ticks'}"

    def written(self, chance, fine):
        """So many fine ticks, as a trace may tell them: a number, or where a tick has a length a duration."""
        if self.unit and chance.random() < 0.5:
            return spelled(chance, self.length(fine)).strip('"')
        return in_unit(self.length(fine), self.unit or "s")


def group_name(number):
    """The name of a group, or of a place of clients; none of a client at none."""
    return "" if number is CLIENT else name_of(number)


def stamp_text(stamp):
    """A stamp; nothing where there is none."""
    return f"{stamp[0]}.{group_name(stamp[1])}" if stamp else ""


def row_of(chance, scale, event):
    """The cells of an event. In those of which nothing is read anything may stand."""
    unread = lambda: chance.choice(["", "", "g0", "nowhere"])
    group = group_name(event.group) or unread()
    sender = group_name(event.sender) or unread()
    time = scale.written(chance, event.time)
    return {"event": event.kind, "message": f"m{event.message}", "group": group, "from": sender, "time": time, "stamp": stamp_text(event.stamp)}


def cell(chance, text):
    """A cell of CSV, now and then in quotes, or between spaces."""
    return chance.choice([text] * 8 + [f'"{text}"', f" {text} "])


def as_table(chance, rows):
    """Lines of CSV, with columns in any order, among them one that says nothing."""
    columns = [*NEEDED, *(name for name in OPTIONAL if any(row[name] for row in rows)), "note"]
    chance.shuffle(columns)
    lines = [columns, *([(row | {"note": "7"})[name] for name in columns] for row in rows)]
    return [",".join(cell(chance, text) for text in line) for line in lines]


def as_object(chance, row):
    """A line with an object, with keys in any order, one among them that says nothing. A number may be one, and a key whose value
    is nothing may be absent, or have a value that is neither a string nor a number."""
    members = []
    for key, text in row.items():
        value = text if key == "time" and NUMBER.fullmatch(text) and chance.random() < 0.5 else json.dumps(text)
        value = value if text else chance.choice(["null", "[]", "true", '""', ""])
        members += [f'"{key}": {value}'] if value else []
    members += ['"note": {"event": "none"}']
    chance.shuffle(members)
    return "{" + ", ".join(members) + "}"


def trace_text(chance, scale, events):
    """A trace of these events: lines of CSV or objects, in any order, and between them some that say nothing."""
    rows = [row_of(chance, scale, event) for event in events]
    chance.shuffle(rows)
    lines = as_table(chance, rows) if chance.random() < 0.5 else [as_object(chance, row) for row in rows]
    for _ in range(chance.randint(0, 3)):
        lines.insert(chance.randint(0, len(lines)), chance.choice(PASSED_OVER))
    return "\n".join(lines) + chance.choice(["", "\n"])
