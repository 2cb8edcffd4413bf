"""Skeen's genuine atomic multicast at one group: the rules of docs/PROTOCOL.md, without time and without a network."""

import typing


class Stamp(typing.NamedTuple):
    """A time of a group's clock, and the group's place in the listed order: tuples compare as stamps do."""

    time: int
    group: int


class Group:
    """What a group keeps: its clock; to how many groups each message goes that has come; all proposals; the local stamps of what
    is not committed yet, and the final ones of what is not delivered yet.

    A hasty group breaks rule 3: nothing that is not committed yet holds a message back there."""

    def __init__(self, number: int, hasty: bool = False):
        self.number, self.hasty, self.clock = number, hasty, 0
        self.wanted: dict[str, int] = {}
        self.proposals: dict[str, set[Stamp]] = {}
        self.pending: dict[str, Stamp] = {}
        self.committed: dict[str, Stamp] = {}

    def arrive(self, message: str, destinations: int) -> Stamp:
        """Rule 1: a message comes, and raises the clock. Answers the stamp that is to be proposed to its other groups."""
        self.clock += 1
        stamp = self.pending[message] = Stamp(self.clock, self.number)
        self.wanted[message] = destinations
        self.hear(message, stamp)
        return stamp

    def hear(self, message: str, stamp: Stamp):
        """Keeps a proposal, which may come before its message."""
        self.proposals.setdefault(message, set()).add(stamp)

    def commit(self, message: str) -> Stamp | None:
        """Rule 2: once the message and all its proposals are there, it gets the greatest of these, to which the clock rises.
        Answers that stamp."""
        if message not in self.pending or len(self.proposals[message]) < self.wanted[message]:
            return None
        del self.pending[message]
        final = self.committed[message] = max(self.proposals[message])
        self.clock = max(self.clock, final.time)
        return final

    def deliver(self) -> list[tuple[Stamp, str]]:
        """Rule 3: delivers what no message with a lesser local stamp holds back, in the order of the final stamps."""
        free = sorted((final, message) for message, final in self.committed.items() if self.is_free(final))
        for _, message in free:
            del self.committed[message]
        return free

    def is_free(self, final: Stamp) -> bool:
        """Whether no message may still get a stamp below this one."""
        return self.hasty or all(final < local for local in self.pending.values())
