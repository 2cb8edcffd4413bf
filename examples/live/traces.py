"""What happened in a run of the live example, on the one clock that all its processes have."""

import csv
import pathlib
import typing

from plays import Plan, Scenario, issues, milliseconds

COLUMNS = ["event", "message", "group", "from", "time", "stamp"]


class Trace:
    """The rows of a run, by time, which counts from its begin, and how late the machine was at most."""

    def __init__(self, scenario: Scenario, plan: Plan, begin: int, rows: list[dict]):
        self.scenario = scenario
        self.rows = [row | {"time": row["time"] - begin} for row in sorted(rows, key=lambda row: row["time"])]
        self.times = {(row["event"], row["message"], row["group"], row["from"]): row["time"] for row in self.rows}
        self.late = max([*self.late_issues(plan), *self.late_packets(plan)])

    def time(self, event: str, message: str, group: str = "", sender: str = "") -> int:
        """When something happened."""
        return self.times[event, message, group, sender]

    def late_issues(self, plan: Plan) -> typing.Iterator[int]:
        """How late each message was issued."""
        for message, due in issues(self.scenario, plan).items():
            yield self.time("issue", message) - due

    def late_packets(self, plan: Plan) -> typing.Iterator[int]:
        """How much longer each packet took than it was to take."""
        for (message, sender, to, is_proposal), takes in plan.items():
            if is_proposal:
                yield self.time("proposal", message, to, sender) - self.time("arrival", message, sender) - takes
            elif to:
                yield self.time("arrival", message, to) - self.time("issue", message) - takes

    def latency(self) -> int:
        """The latency of the target."""
        message, group = self.scenario.target
        return self.time("delivery", message, group) - self.time("issue", message)

    def write(self, path: pathlib.Path):
        """Writes the rows as CSV, with times and stamps as texts of Convoy have them."""
        with open(path, "w", newline="") as file:
            writer = csv.DictWriter(file, COLUMNS, lineterminator="\n")
            writer.writeheader()
            writer.writerows(row | {"time": milliseconds(row["time"]), "stamp": self.stamp(row["stamp"])} for row in self.rows)

    def stamp(self, stamp: list[int] | None) -> str:
        """A stamp with the name of its group; nothing where there is none."""
        return f"{stamp[0]}.{self.scenario.groups[stamp[1]]}" if stamp else ""
