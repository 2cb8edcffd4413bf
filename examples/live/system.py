"""The processes of the live example: how they are started, what they are told, and how they end."""

import asyncio
import contextlib
import json
import pathlib
import subprocess
import sys
import typing

from network import UNIT, now
from plays import CLIENT, NoPlay, Plan, Scenario, TooBusy, part_of
from traces import Trace

HERE = pathlib.Path(__file__).resolve().parent
# A process that writes nothing for so many seconds hangs, and one that has not ended by then is ended by force.
PATIENCE = 10
# A run begins so long after the processes are told when.
LEAD = 50_000_000 // UNIT
# How often a run is played at most.
TRIES = 10


class System:
    """The processes of a scenario, one for each group, one for each place of clients, and one for its other clients."""

    def __init__(self, scenario: Scenario, processes: dict[str, asyncio.subprocess.Process]):
        self.scenario, self.processes = scenario, processes

    async def line(self, name: str) -> bytes:
        """The next line that a process writes."""
        line = await asyncio.wait_for(self.processes[name].stdout.readline(), PATIENCE)
        if not line:
            raise NoPlay(f"the process of {name} has ended")
        return line

    def order(self, name: str, word: str, what: typing.Any):
        """Gives an order to a process."""
        self.processes[name].stdin.write(json.dumps([word, what]).encode() + b"\n")

    async def connect(self):
        """Has all processes connected with the groups."""
        ports = {name: int(await self.line(name)) for name in self.processes}
        for name in self.processes:
            self.order(name, "connect", {group: ports[group] for group in self.scenario.groups})
            await self.line(name)

    async def rows(self, name: str) -> list[dict]:
        """All rows that a process writes of a run: what it issues, and of each message that comes its arrival, the proposals of
        the other groups, its commit and its delivery."""
        issued = sum(sender == name for sender in self.scenario.senders.values())
        number = issued + sum(2 + len(to) for to in self.scenario.to.values() if name in to)
        return [json.loads(await self.line(name)) for _ in range(number)]

    async def play(self, plan: Plan, hasty: bool) -> Trace:
        """Plays a run to its end."""
        for name in self.processes:
            self.order(name, "prepare", part_of(self.scenario, plan, name, hasty))
            await self.line(name)
        begin = now() + LEAD
        for name in self.processes:
            self.order(name, "start", begin)
        rows = await asyncio.gather(*map(self.rows, self.processes))
        return Trace(self.scenario, plan, begin, sum(rows, []))

    async def play_undisturbed(self, plan: Plan, margin: int, hasty: bool = False) -> Trace:
        """Plays a run, once more where the machine was late by more than the margin."""
        for _ in range(TRIES):
            trace = await self.play(plan, hasty)
            if trace.late <= margin:
                return trace
        raise TooBusy(TRIES)


async def end(process: asyncio.subprocess.Process):
    """Ends a process: it ends with its orders, and else by force."""
    process.stdin.close()
    try:
        await asyncio.wait_for(process.wait(), PATIENCE)
    except asyncio.TimeoutError:
        process.kill()
        await process.wait()


@contextlib.asynccontextmanager
async def running(scenario: Scenario) -> typing.AsyncIterator[System]:
    """The processes of a scenario, from their start to the end of the block. An interrupt does not reach them."""
    processes, how = {}, {"stdin": subprocess.PIPE, "stdout": subprocess.PIPE, "start_new_session": True}
    try:
        for name in [*scenario.groups, *scenario.places, CLIENT]:
            processes[name] = await asyncio.create_subprocess_exec(sys.executable, HERE / "process", name, **how)
        system = System(scenario, processes)
        await system.connect()
        yield system
    finally:
        await asyncio.gather(*map(end, processes.values()))
