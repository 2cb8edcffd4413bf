"""A network among the processes of one machine in which each packet takes as long as it is told to.

A packet is a line of JSON over TCP. It says when it is due, and who receives it looks at it no sooner. So packets overtake
each other as they do in the model, and what the machine takes to carry one does not count while that is less than the delay.
All times are whole UNITs of the one clock that all processes of a machine have.
"""

import asyncio
import json
import time

# 10 us, in ns.
UNIT = 10_000
HERE = "127.0.0.1"


def now() -> int:
    """The time."""
    return time.monotonic_ns() // UNIT


def call_at(due: int, act, *what):
    """Acts at a time, or as soon after it as the machine does so."""
    # (the clock of the loop is the same one, in seconds)
    asyncio.get_running_loop().call_at(due * UNIT / 1e9, act, *what)


class Inbox(asyncio.Protocol):
    """The end of a connection at which packets come."""

    def __init__(self, receive):
        self.receive, self.rest = receive, b""

    def data_received(self, data: bytes):
        *lines, self.rest = (self.rest + data).split(b"\n")
        for line in lines:
            packet = json.loads(line)
            call_at(packet["due"], self.receive, packet)


class Network:
    """The connections of one process. `receive` is called with each packet when that is due."""

    def __init__(self, receive):
        self.receive, self.server, self.ways = receive, None, {}

    async def listen(self) -> int:
        """Takes connections at a port that the system chooses, which it answers."""
        self.server = await asyncio.get_running_loop().create_server(lambda: Inbox(self.receive), HERE, 0)
        return self.server.sockets[0].getsockname()[1]

    async def connect(self, ports: dict[str, int]):
        """Makes a connection to each of the processes that listen at these ports."""
        for name, port in ports.items():
            self.ways[name], _ = await asyncio.get_running_loop().create_connection(asyncio.Protocol, HERE, port)

    def send(self, to: str, due: int, **packet):
        """Sends a packet that is due at that time."""
        self.ways[to].write(json.dumps(packet | {"due": due}).encode() + b"\n")

    def close(self):
        """Ends all connections that this process has made."""
        self.server.close()
        for way in self.ways.values():
            way.close()
