"""Scenario texts as a reader of TOML has them: their targets, and texts that are made of tables."""

import fractions
import math
import re
import tomllib

NANOSECONDS = {"ns": 1, "us": 1_000, "ms": 1_000_000, "s": 1_000_000_000}
DURATION = re.compile(r"(\d+(?:\.\d+)?) ?(ns|us|ms|s)")
# The last tick at which a target may be issued, and how long two windows may be together, of which one is the target's.
LATEST, LONGEST_WAIT = 1_000_000, 65_535


def nanoseconds(text):
    """How long a duration is."""
    number, unit = DURATION.fullmatch(text).groups()
    return int(fractions.Fraction(number) * NANOSECONDS[unit])


def times_of(table):
    """All times that make a tick: deadlines are none of them."""
    yield from (table[key] for key in ("delay", "least") if key in table)
    yield from (message[key] for message in table["multicast"] for key in ("at", "until") if key in message)
    yield from (link[key] for link in table.get("link", []) for key in ("least", "most"))


def tick_of(table):
    """How many nanoseconds a tick has; None where it has no length."""
    if "tick" in table:
        return nanoseconds(table["tick"])
    told = [nanoseconds(time) for time in times_of(table) if isinstance(time, str)]
    return math.gcd(*told) if told else None


def ticks(table, time):
    """How many whole ticks there are in a time."""
    return time if isinstance(time, int) else nanoseconds(time) // tick_of(table)


def may_wait(message):
    """Whether a message of a table may be issued at several ticks."""
    return message.get("until", message["at"]) != message["at"]


def longest_wait(table, message):
    """How many ticks a message of a table may wait."""
    return ticks(table, message.get("until", message["at"])) - ticks(table, message["at"])


def has_room(table, message):
    """Whether a message of a table may be the target: it has no window, or that ends early enough, and is no longer with any
    other than one may be."""
    longest = max((longest_wait(table, other) for other in table["multicast"] if other is not message), default=0)
    last = ticks(table, message["at"]) + longest_wait(table, message)
    return not may_wait(message) or last <= LATEST and longest + longest_wait(table, message) <= LONGEST_WAIT


def targets_of(table):
    """Each message of a table that has room as the target at each group that it goes to, in the order of their numbers."""
    for message in table["multicast"]:
        if has_room(table, message):
            for group in sorted(message["to"], key=table["groups"].index):
                yield message["name"], group


def targets(text):
    """Each message of a text that has room as the target at each group that it goes to."""
    return targets_of(tomllib.loads(text))


def with_target(text, message, group):
    """The text with another target."""
    header = re.search(r"(?m)^\[target\]$", text)
    before, target = text[: header.start()], text[header.start() :]
    target = re.sub(r"(?m)^message = .*$", f'message = "{message}"', target, count=1)
    return before + re.sub(r"(?m)^group = .*$", f'group = "{group}"', target, count=1)


def value_of(value):
    """A value as TOML writes it."""
    if isinstance(value, list):
        return f"[{', '.join(map(value_of, value))}]"
    if isinstance(value, bool):
        return str(value).lower()
    return str(value) if isinstance(value, int) else f'"{value}"'


def text_of(table):
    """A text of the scenario, or of the plan, that a table has, as a reader of TOML gives it."""
    lines = [f"{key} = {value_of(value)}" for key, value in table.items() if key not in ("group", "multicast", "link", "target")]
    for key in ("group", "multicast", "link"):
        for each in table.get(key, []):
            lines += ["", f"[[{key}]]", *(f"{name} = {value_of(value)}" for name, value in each.items())]
    if "target" in table:
        lines += ["", "[target]", *(f"{name} = {value_of(value)}" for name, value in table["target"].items())]
    return "\n".join(lines) + "\n"


def with_length(text, chance):
    """A text in real time with a length of its ticks."""
    return text.replace('time = "real"\n', f'time = "real"\ntick = "{chance.choice([1, 50, 200])} {chance.choice(["us", "ms"])}"\n', 1)
