"""Messages that are finished some time after their commit, once the replicas of groups have answered: by which ways, when at the
latest, and the greatest latency of small scenarios by all their schedules, one after the other.

This is written from docs/PROTOCOL.md ("Groups replicated by white box") and shares nothing with the program; with
tests/schedules.py only the schedules are. How far the replicas of each group are from its leader is told by a list of ticks.
"""

import itertools
import typing

from schedules import Run, in_any_order, issue_ticks, moments_of, times


def most_between(system, spans, group, other):
    """The greatest delay of a packet between replicas of two groups: that of their link, or inside one what its replicas take."""
    return spans[group] if group == other else system.links.get((group, other), (1, system.delay))[1]


def ways_of(system, spans):
    """Of each message, and by each group: how long it takes at most from when the message comes to that group until all replicas of
    all its groups, to which the stamp goes from there, have answered to the target's group."""
    most = lambda group, other: most_between(system, spans, group, other)
    by = lambda via, to: max(most(via, group) + most(group, system.at) for group in to)
    return [[by(via, to) for via in range(system.groups)] for _, to, _ in system.messages]


def finishes(system, ways, arrival, commit):
    """When each message that goes to the target's group is finished there at the latest."""
    to_at = [(message, to) for message, (_, to, _) in enumerate(system.messages) if system.at in to]
    return {m: max(commit[m, system.at], *(arrival[m, via] + ways[m][via] for via in to)) for m, to in to_at}


def is_ahead(run, message, target, at):
    """Whether a message has come to the target's group with a stamp below the final one of the target."""
    return run.local.get((message, at), (float("inf"),)) < run.final[target, at]


class Finished(typing.NamedTuple):
    """A run in which each message is finished as late as it may be: when the target is issued, when each message is committed at the
    target's group and finished there, which messages are ahead of the target, and how late that is."""

    issue: int
    commit: dict
    finish: dict
    ahead: list
    latency: int


def finished(system, ways, schedule, ranks=None):
    """The run of a schedule, with its ties as these ranks say, or in the fixed order."""
    packets, target, at = list(system.packets()), system.target, system.at
    arrival, commit = times(system, packets, schedule)
    finish, run = finishes(system, ways, arrival, commit), Run(system)
    for _, _, is_commit, message, group in sorted(moments_of(system, packets, schedule, ranks or itertools.repeat(0))):
        run.act(message, group, is_commit)
    ahead = [message for message in finish if is_ahead(run, message, target, at)]
    issue = issue_ticks(system, packets, schedule)[target]
    committed = {message: commit[message, at] for message in finish}
    return Finished(issue, committed, finish, ahead, max(finish[message] for message in [target, *ahead]) - issue)


def committed_runs(system, packets, schedule):
    """The runs of a schedule, in whole ticks one, until the target is committed at its group: in each order of their ties."""
    moments, runs = sorted(moments_of(system, packets, schedule, itertools.repeat(0))), [Run(system)]
    for _, at_once in itertools.groupby(moments, key=lambda moment: moment[0]):
        by_group = {}
        for _, _, is_commit, message, group in at_once:
            by_group.setdefault(group, []).append((message, group, is_commit))
            if not system.real:
                runs[0].act(message, group, is_commit)
        for each in by_group.values() if system.real else ():
            runs = in_any_order(runs, each)
        if (system.target, system.at) in runs[0].final:
            return runs
    raise AssertionError("the target is never committed")


def finish_latency(system, ways, packets, schedule):
    """The greatest latency of a schedule: from the target's issue to the last finish of it and of all that are ahead of it."""
    arrival, commit = times(system, packets, schedule)
    finish, target, at = finishes(system, ways, arrival, commit), system.target, system.at
    runs = committed_runs(system, packets, schedule)
    ahead = {message for run in runs for message in finish if is_ahead(run, message, target, at)}
    return max(finish[message] for message in {target, *ahead}) - issue_ticks(system, packets, schedule)[target]


def greatest(system, ways):
    """The greatest latency of all schedules."""
    packets = list(system.packets())
    return max(finish_latency(system, ways, packets, schedule) for schedule in itertools.product(*system.ranges()))
