"""What is played on the processes of the live example: runs of a scenario by chance, and the worst run that Convoy found.

Convoy is asked for a certificate of the scenario, which has its messages and the worst schedule, and for its packets: both
texts are told in docs/FORMATS.md. All times are whole UNITs, as in network.py.
"""

import json
import os
import pathlib
import random
import re
import subprocess
import typing

from network import UNIT

ROOT = pathlib.Path(__file__).resolve().parent.parent.parent
CLIENT = "client"
# A run of the program that takes more seconds is given up.
PATIENCE = 60
NANOSECONDS = {"ns": 1, "us": 1_000, "ms": 1_000_000, "s": 1_000_000_000}
# A line of `packets`.
LINE = re.compile(
    r"packet \d+: (?P<of>proposal of )?(?P<message>\S+)(?: from (?P<sender>\S+) to (?P<to>\S+)| waits), "
    r"(?P<least>\d+) to (?P<most>\d+) ticks, takes (?P<takes>\d+)"
)


class NoPlay(Exception):
    """Why nothing is played."""


class TooBusy(NoPlay):
    """The machine was late in each run: a run on a quiet one would be played."""

    def __init__(self, tries):
        super().__init__(f"this machine is too busy: something was late in each of {tries} runs")


class Packet(typing.NamedTuple):
    """A message on its way to a group, or a proposal for it; or without a way a message that waits for its issue."""

    message: str
    sender: str | None = None
    to: str | None = None
    is_proposal: bool = False


class Range(typing.NamedTuple):
    """How long something may take, and how long it takes in the worst run."""

    least: int
    most: int
    worst: int


class Scenario(typing.NamedTuple):
    """A scenario and its answer: its groups and its places of clients; of each message the sender, the groups and the first time
    of issue; the target's message and group; the greatest latency; and the range of each packet, and of each message that
    may wait."""

    groups: list[str]
    places: list[str]
    senders: dict[str, str]
    to: dict[str, list[str]]
    first: dict[str, int]
    target: tuple[str, str]
    greatest: int
    ranges: dict[Packet, Range]


# How long everything takes in one run.
Plan = dict[Packet, int]


def program() -> str:
    """The program: the one that the variable CONVOY names, or that of this repository."""
    return os.environ.get("CONVOY") or str(ROOT / "convoy")


def convoy(*words: str | pathlib.Path, text: str = "") -> str:
    """What a command of Convoy answers."""
    done = subprocess.run([program(), *words], input=text, capture_output=True, text=True, timeout=PATIENCE)
    # (with 5 it is an answer, too, by which a deadline is not kept)
    if done.returncode not in (0, 5):
        raise NoPlay(f"convoy {words[0]} ends with the status {done.returncode}: {done.stdout}{done.stderr}".rstrip())
    return done.stdout


def milliseconds(time: int) -> str:
    """A time as a duration."""
    return f"{time * UNIT / 1_000_000:.2f} ms"


def read(path: pathlib.Path) -> Scenario:
    """Reads a scenario, and asks for its worst run."""
    certificate = convoy("analyse", path)
    rows: dict[str, list[list[str]]] = {}
    for word, *words in map(str.split, certificate.splitlines()):
        rows.setdefault(word, []).append(words)
    tick, messages = tick_of(rows), rows["multicast"]
    return Scenario(
        groups=rows["groups"][0],
        places=rows.get("places", [[]])[0],
        senders={name: sender for name, sender, *_ in messages},
        to={name: to for name, _, _, *to in messages},
        first={name: tick * int(issue.split("..")[0]) for name, _, issue, *_ in messages},
        target=tuple(rows["target"][0]),
        greatest=tick * int(rows["latency"][0][0]),
        ranges=dict(range_of(line, tick) for line in convoy("packets", text=certificate).splitlines()),
    )


def tick_of(rows: dict[str, list[list[str]]]) -> int:
    """How many UNITs a tick of a certificate has, if its run can be played."""
    if "tick" not in rows:
        raise NoPlay('only a scenario with `time = "real"` and with durations can be played')
    if rows["order"] != [[]]:
        raise NoPlay("the worst run has ties that fall in an order which no machine can be made to keep")
    count, unit = rows["tick"][0]
    tick, rest = divmod(int(count) * NANOSECONDS[unit], UNIT)
    if rest:
        raise NoPlay(f"a tick of {count} {unit} is no whole number of {UNIT} ns")
    return tick


def range_of(line: str, tick: int) -> tuple[Packet, Range]:
    """What a line of `packets` tells."""
    told = LINE.fullmatch(line)
    packet = Packet(told["message"], told["sender"], told["to"], told["of"] is not None)
    return packet, Range(*(tick * int(told[name]) for name in ("least", "most", "takes")))


def worst(scenario: Scenario) -> Plan:
    """The worst run."""
    return {packet: each.worst for packet, each in scenario.ranges.items()}


def by_chance(scenario: Scenario, chance: random.Random) -> Plan:
    """A run in which each packet takes any time in its range, and each message is issued at any time in its window."""
    return {packet: chance.randint(each.least, each.most) for packet, each in scenario.ranges.items()}


def issues(scenario: Scenario, plan: Plan) -> dict[str, int]:
    """When each message is issued, after the begin of the run."""
    return {message: first + plan.get(Packet(message), 0) for message, first in scenario.first.items()}


def part_of(scenario: Scenario, plan: Plan, name: str, hasty: bool) -> dict:
    """What a process has to know of a run, as the script `process` reads it."""
    messages, proposals = ({message: {} for message in scenario.to} for _ in range(2))
    for packet, takes in plan.items():
        if packet.sender == name:
            (proposals if packet.is_proposal else messages)[packet.message][packet.to] = takes
    mine = {message: time for message, time in issues(scenario, plan).items() if scenario.senders[message] == name}
    takes = {"messages": messages, "proposals": proposals}
    return {"groups": scenario.groups, "to": scenario.to, "issues": mine, "hasty": hasty} | takes


def wider(scenario: Scenario, margin: int) -> str:
    """The text of the scenario in which each range and each window ends so much later. In it what the machine does late is done
    in time, or is longer on its way."""
    message, group = scenario.target
    tables = [
        ("", {"time": "real", "groups": scenario.groups} | ({"places": scenario.places} if scenario.places else {})),
        *(("\n[[link]]\n", link) for link in wider_links(scenario, margin)),
        *(("\n[[multicast]]\n", each) for each in wider_messages(scenario, margin)),
        ("\n[target]\n", {"message": message, "group": group}),
    ]
    return "".join(head + lines(table) for head, table in tables)


def wider_links(scenario: Scenario, margin: int) -> typing.Iterator[dict]:
    """The link of each way on which packets go, with a wider range."""
    ways = {(packet.sender, packet.to): each for packet, each in scenario.ranges.items() if packet.to}
    for (sender, to), each in ways.items():
        yield sent_by(sender) | {"to": to, "least": milliseconds(each.least), "most": milliseconds(each.most + margin)}


def wider_messages(scenario: Scenario, margin: int) -> typing.Iterator[dict]:
    """Each message, with a wider window."""
    last = issues(scenario, {packet: each.most for packet, each in scenario.ranges.items()})
    for name, sender in scenario.senders.items():
        window = {"at": milliseconds(scenario.first[name]), "until": milliseconds(last[name] + margin)}
        yield {"name": name} | sent_by(sender) | {"to": scenario.to[name]} | window


def sent_by(sender: str) -> dict[str, str]:
    """The key that names a sender, which what a client sends does not have."""
    return {} if sender == CLIENT else {"from": sender}


def lines(table: dict[str, str | list[str]]) -> str:
    """Strings, and arrays of them, under their keys in TOML, where they stand as in JSON."""
    return "".join(f"{key} = {json.dumps(value)}\n" for key, value in table.items())
