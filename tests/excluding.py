"""Certificates of plans: whether what one says shows that no choice is better.

This is written from docs/FORMATS.md, and shares nothing with the program: schedules are simulated by tests/schedules.py, and
the scenario of a choice is made by tests/placing.py. A plan is the table of its text. The certificates of the choice's
targets, each a text of its own, are for `check --scenario`.
"""

import functools
import inspect
import itertools

import schedules
from placing import CLIENT, client_sites, homes_of, keeps_apart, ranges_of, scenario_of, total_of
from tables import longest_wait, ticks


class Faulty(Exception):
    """Why a text does not show it."""


def hold(holds, what):
    """Says what is wrong where something does not hold."""
    if not holds:
        raise Faulty(what)


class Lines:
    """The lines of a text, one after the other."""

    def __init__(self, text):
        hold(text.endswith("\n"), "the last line is not ended")
        self.left = text.split("\n")[:-1]

    def begins(self, *words):
        """Whether the next line begins with one of these words."""
        return bool(self.left) and self.left[0].split(" ")[0] in words

    def next(self, word):
        """The numbers of the next line, which begins with that word."""
        hold(self.begins(word), f"no line {word}")
        numbers = self.left.pop(0).split(" ")[1:]
        hold(all(number.isdecimal() and number == str(int(number)) for number in numbers), "no numbers")
        return list(map(int, numbers))

    def to_end(self):
        """The lines up to the next line `end`, as a text."""
        hold("end" in self.left, "no line end")
        place = self.left.index("end") + 1
        lines, self.left = self.left[:place], self.left[place:]
        return "".join(f"{line}\n" for line in lines)


class Certificate:
    """What a text says: the sites of the groups and their order, by number, a certificate for each target, and the rest of
    the lines, which are the tree."""

    def __init__(self, text):
        self.lines = Lines(text)
        hold(self.lines.left.pop(0) == "convoy plan 1", "no certificate of a plan")
        self.sites, self.order = self.lines.next("sites"), self.lines.next("order")
        self.shown = []
        while self.lines.begins("convoy"):
            self.shown.append(self.lines.to_end())
        hold(self.lines.next("tree") == [], "no line tree")


def scenario_of_table(table):
    """A scenario to be simulated, of the table of its text."""
    groups, delay = table["groups"], delay_of(table)
    place = lambda name: schedules.CLIENT if name is CLIENT else groups.index(name)
    bounds = {(place(link.get("from")), place(link["to"])): (ticks(table, link["least"]), ticks(table, link["most"])) for link in table["link"]}
    pairs = [(a, b) for a in [schedules.CLIENT, *range(len(groups))] for b in range(len(groups)) if a != b]
    links = {pair: bounds.get(pair, (ticks(table, table.get("least", 1)), delay)) for pair in pairs}
    messages = [(place(each.get("from")), sorted(map(groups.index, each["to"])), ticks(table, each["at"])) for each in table["multicast"]]
    names, asked = [each["name"] for each in table["multicast"]], table["target"]
    waits = [longest_wait(table, each) for each in table["multicast"]]
    is_real = table.get("time") == "real"
    return schedules.Scenario(delay, len(groups), messages, names.index(asked["message"]), groups.index(asked["group"]), links, is_real, waits)


def delay_of(table):
    """D: where it is not written the most of all links."""
    return ticks(table, table["delay"]) if "delay" in table else max(ticks(table, link["most"]) for link in table["link"])


def latency_of(scenario, delays, ranks):
    """The latency of a schedule of a scenario: one number for each packet, in its range, and one rank for each moment, or none."""
    hold(len(delays) == len(list(scenario.packets())), "not one delay for each packet")
    hold(all(delay in ticks for delay, ticks in zip(delays, scenario.ranges())), "a delay out of its range")
    hold(not ranks or scenario.real and len(ranks) == len(scenario.moments()), "not one rank for each moment")
    hold(all(rank < 256 for rank in ranks), "a rank that is too great")
    return schedules.latency(scenario, list(scenario.packets()), delays, ranks or None)


class Plan:
    """A plan, with the targets that count and their limits, in the order of the targets."""

    def __init__(self, table, limits):
        self.table, self.limits, self.targets = table, limits, list(limits)
        self.names = [*table["groups"], *client_sites(table)[1:]]
        self.homes = [homes_of(table)[group] for group in table["groups"]]
        self.ranges = ranges_of(table)

    def placement(self, sites):
        """A placement, by the numbers of its sites."""
        return dict(zip(self.table["groups"], (self.table["sites"][site] for site in sites)))

    def excess(self, target, latency):
        """By how much a latency of a target exceeds its limit."""
        return latency - self.limits[target]

    @functools.lru_cache(None)
    def most_known(self, one, other):
        """How long what goes from a site to a site takes at most, as far as both are known and that is written."""
        return ticks(self.table, self.ranges[one, other][1]) if (one, other) in self.ranges else 0

    def way_known(self, placed, sender, group):
        """The same from a sender, clients at a site or a group, to a group."""
        at = placed.get(sender) if sender in self.table["groups"] else sender
        return 0 if sender == group else self.most_known(at, placed.get(group))

    def commit_known(self, placed, message, group):
        """How long a message takes to its commit at a group where all takes as long as it may, as far as the sites are known."""
        return max(self.way_known(placed, message["from"], via) + self.way_known(placed, via, group) for via in message["to"])

    def total_known(self, placed):
        """The same, summed over all messages and their groups."""
        return sum(self.commit_known(placed, message, group) for message in self.table["multicast"] for group in message["to"])

    def message(self, target):
        """The table of a target's message."""
        return next(message for message in self.table["multicast"] if message["name"] == target[0])

    def has_scenario(self, placement):
        """Whether all packets that travel in real time have a range, and no group too many is there."""
        table = self.table
        if len(self.names) > 8:
            return False
        if table.get("time") != "real" or "least" in table:
            return True
        scenario = scenario_of(table, placement)
        written = {(link.get("from"), link["to"]) for link in scenario["link"]}
        sent = {(each.get("from"), to) for each in scenario["multicast"] for to in each["to"] if each.get("from") != to}
        sent |= {pair for each in scenario["multicast"] for pair in itertools.permutations(each["to"], 2)}
        return sent <= written


def shows(table, limits, text):
    """What a certificate shows of a plan: the choice, the excess and the total that no choice is below, and for each target that
    counts the scenario of the choice with the certificate of its latency."""
    plan, certificate = Plan(table, limits), Certificate(text)
    hold(len(certificate.sites) == len(plan.homes), "not one site for each group")
    hold(all(site < len(table["sites"]) for site in certificate.sites), "no site")
    placement = plan.placement(certificate.sites)
    hold(all(placement[group] in homes for group, homes in zip(table["groups"], plan.homes)), "no site of its group")
    hold(keeps_apart(table, placement) and plan.has_scenario(placement), "no placement")
    hold(sorted(certificate.order) == list(range(len(plan.names))), "no order")
    hold(len(certificate.shown) == len(plan.targets), "not one certificate for each target")
    order = [plan.names[number] for number in certificate.order]
    shown = [(scenario_of(table, placement, order, target), one) for target, one in zip(plan.targets, certificate.shown)]
    latencies = [same_scenario(*each) for each in shown]
    floor = max(map(plan.excess, plan.targets, latencies)), total_of(table, placement)
    tree(plan, floor, certificate.lines, {})
    hold(certificate.lines.left == ["end"], "lines after the tree")
    return (placement, order), floor, shown


def same_scenario(table, text):
    """The latency of a certificate, which has to be of that scenario: its schedule has it."""
    own = scenario_of_table(table)
    try:
        other = schedules.of_certificate(text)
        (latency,) = schedules.line_of_certificate(text, "latency")
        delays, ranks = schedules.delays_of_certificate(text), schedules.line_of_certificate(text, "order")
    except (ValueError, IndexError) as wrong:
        raise Faulty("no certificate") from wrong
    same = lambda one: (one.delay, one.groups, one.messages, one.target, one.at, one.real, one.waits, list(one.ranges()))
    hold(same(own) == same(other), "a certificate of another scenario")
    hold(latency_of(own, delays, ranks) == latency, "a schedule of another latency")
    return latency


def tree(plan, floor, lines, placed):
    """The tree over all placements that have groups at these sites."""
    word = next((word for word in "scanw" if lines.begins(word)), None)
    hold(word, "no node")
    numbers = lines.next(word)
    node = {"s": split, "c": commit, "a": apart, "n": no_scenario, "w": late}[word]
    try:
        given = inspect.signature(node).bind(plan, floor, lines, placed, *numbers)
    except TypeError as wrong:
        raise Faulty("more or fewer numbers than the node has") from wrong
    node(*given.args)


def split(plan, floor, lines, placed, number):
    """All sites of a group that has none yet."""
    hold(number < len(plan.homes) and plan.table["groups"][number] not in placed, "a split that is none")
    for site in plan.homes[number]:
        tree(plan, floor, lines, placed | {plan.table["groups"][number]: site})


def commit(plan, floor, lines, placed, number):
    """A target is committed too late, wherever the other groups are."""
    hold(number < len(plan.targets), "no commit")
    target = plan.targets[number]
    needed = floor[0] + (plan.total_known(placed) < floor[1])
    hold(plan.excess(target, plan.commit_known(placed, plan.message(target), target[1])) >= needed, "an early commit")


def apart(plan, floor, lines, placed, one, other):
    """Two groups at one site that are to be apart."""
    hold(max(one, other) < len(plan.homes) and one != other, "no groups")
    names = {plan.table["groups"][number] for number in (one, other)}
    hold(len({placed.get(name) for name in names}) == 1 and names <= set(placed), "groups at two sites")
    hold(any(names <= set(groups) for groups in plan.table.get("apart", [])), "groups that need not be apart")


def no_scenario(plan, floor, lines, placed):
    """A placement that has no scenario."""
    hold(len(placed) == len(plan.homes) and not plan.has_scenario(placed), "a scenario")


def late(plan, floor, lines, placed):
    """In each order of the groups some witness is late."""
    hold(len(placed) == len(plan.homes) and plan.has_scenario(placed), "not one scenario")
    witnesses = []
    while lines.begins("t"):
        (number,), delays = lines.next("t"), lines.next("schedule")
        ranks = lines.next("order") if lines.begins("order") else []
        hold(number < len(plan.targets), "no target")
        witnesses.append((plan.targets[number], delays, ranks))
    groups = [group for (_, group), _, _ in witnesses]
    hold(groups and len(set(groups)) == len(groups), "not several groups")
    needed = floor[0] + (total_of(plan.table, placed) < floor[1])
    for (target, delays, ranks) in witnesses:
        order = [name for name in plan.names if name not in groups] + [target[1]] + [group for group in groups if group != target[1]]
        scenario = scenario_of_table(scenario_of(plan.table, placed, order, target))
        hold(plan.excess(target, latency_of(scenario, delays, ranks)) >= needed, "an early witness")
