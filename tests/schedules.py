"""Small scenarios by chance, and the greatest latency of each by all its schedules, one after the other.

The simulation is written from docs/PROTOCOL.md and shares nothing with the program: groups act tick by tick. In real
time a schedule has every order of its ties that may be.
"""

import copy
import itertools
import math

MOST_SCHEDULES = 4096
CLIENT = None
# What has a place in a schedule: how long a message waits for its issue, how long it is under way, and how long a stamp is.
WAIT, MESSAGE, PROPOSAL = "wait", "message", "proposal"


class Scenario:
    """How many groups there are, messages as (sender, destinations, first tick of issue), the target's number and group, links
    as ranges by (sender, destination), whether its time is real, how many ticks each message may wait for its issue, where
    none may if that is not told, the groups whose links to themselves are for stamps, too, and the places of clients. A
    sender is the number of a group, CLIENT, or the name of a place."""

    def __init__(self, delay, groups, messages, target, at, links, real=False, waits=None, stamps=(), places=()):
        self.delay, self.groups, self.messages = delay, groups, messages
        self.target, self.at, self.links, self.real = target, at, links, real
        self.waits, self.stamps, self.places = waits or [0] * len(messages), stamps, places

    def with_parts(self, **parts):
        """The scenario with other parts."""
        other = copy.copy(self)
        vars(other).update(parts)
        return other

    def senders(self):
        """All that may send: clients at no place, those at each place, and groups."""
        return [CLIENT, *self.places, *range(self.groups)]

    def packets(self):
        """Message by message: its wait, if it may wait, the message itself, and then the proposals, as (message, from, to, which)."""
        for number, (sender, to, _) in enumerate(self.messages):
            yield from [(number, sender, sender, WAIT)] * bool(self.waits[number])
            yield from ((number, sender, g, MESSAGE) for g in to if g != sender or (sender, g) in self.links)
            yield from ((number, h, g, PROPOSAL) for h in to for g in to if h != g or g in self.stamps)

    def ranges(self):
        """What each packet may take, and how long each message may wait, in the order of the packets."""
        for number, sender, to, which in self.packets():
            least, most = (0, self.waits[number]) if which is WAIT else self.links.get((sender, to), (1, self.delay))
            yield range(least, most + 1)

    def moments(self):
        """What happens at each group, as (message, group, is it a commit), in the order in which ranks are listed."""
        return [(m, g, is_commit) for m, (_, to, _) in enumerate(self.messages) for g in to for is_commit in (False, True)]

    def size(self):
        """How many delays and waits there are for all packets and messages together."""
        return math.prod(len(delays) for delays in self.ranges())

    def issues(self):
        """The first tick at which each message may be issued, and the last where it may wait."""
        return [[at, at + wait] if wait else [at] for (_, _, at), wait in zip(self.messages, self.waits)]

    def all_times(self):
        """All that is told in ticks: D, when each message may be issued, and the ends of each link's range."""
        return [self.delay, *itertools.chain.from_iterable([*self.issues(), *self.links.values()])]

    def text(self, tick=None, told=str, least=1):
        """The scenario as TOML, with this value of the key `tick`, and each time told so. In real time the least delay
        of what goes by no link is told as well, which is a tick, however many of those it is that `told` counts."""
        lines = ['time = "real"'] if self.real else []
        lines += [f"tick = {tick}"] if tick else []
        lines += [f"delay = {told(self.delay)}"]
        lines += [f"least = {told(least)}"] if self.real else []
        lines += [f"groups = {quoted(range(self.groups))}", *[f"places = {quoted(self.places)}"] * bool(self.places), ""]
        tables = zip(itertools.count(), self.messages, self.issues())
        homes = [(group, group) for group in self.stamps]
        lines += itertools.chain.from_iterable(message_lines(*each, told) for each in tables)
        lines += ["[target]", f'message = "m{self.target}"', f'group = "g{self.at}"', ""]
        lines += itertools.chain.from_iterable(link_lines(*each, told, each[0] in homes) for each in self.links.items())
        return "\n".join(lines)

    def in_finer_ticks(self, times):
        """The scenario with each tick cut into so many: all ranges are written as links."""
        pairs = [(a, b) for a in self.senders() for b in range(self.groups) if a != b or (a, b) in self.links]
        ranges = {pair: self.links.get(pair, (1, self.delay)) for pair in pairs}
        links = {pair: (times * least, times * most) for pair, (least, most) in ranges.items()}
        messages = [(sender, to, times * at) for sender, to, at in self.messages]
        waits = [times * wait for wait in self.waits]
        return self.with_parts(delay=times * self.delay, messages=messages, links=links, waits=waits)

    def issued_after(self, waits):
        """The scenario in which each message has waited so long, and waits no longer."""
        messages = [(sender, to, at + wait) for (sender, to, at), wait in zip(self.messages, waits)]
        return self.with_parts(messages=messages, waits=[0] * len(messages))

    def waiting(self, waits):
        """The scenario in which each message may wait so long."""
        return self.with_parts(waits=waits)

    def issued_later(self, ticks):
        """The scenario in which each message may be issued so many ticks later, and no sooner."""
        return self.with_parts(messages=[(sender, to, at + ticks) for sender, to, at in self.messages])

    def widened(self):
        """The scenario in which the target is issued at the end of its window, and each other message may wait as much longer as
        the target might: it has all runs of this one, moved."""
        longer = self.waits[self.target]
        messages = [(sender, to, at + longer * (number == self.target)) for number, (sender, to, at) in enumerate(self.messages)]
        waits = [0 if number == self.target else wait + longer for number, wait in enumerate(self.waits)]
        return self.with_parts(messages=messages, waits=waits)


def is_group(sender):
    """Whether a sender is a group, and not a client."""
    return isinstance(sender, int)


def name_of(sender):
    """The name of a group, or of a place of clients, or the word for a client at none."""
    return f"g{sender}" if is_group(sender) else sender or "client"


def quoted(senders):
    """The names of groups or places, as an array."""
    return "[" + ", ".join(f'"{name_of(sender)}"' for sender in senders) + "]"


def sender_lines(sender):
    """The key of a sender, which clients at no place have none of."""
    return [] if sender is CLIENT else [f'from = "{name_of(sender)}"']


def message_lines(number, message, issue, told):
    """The table of a message, with the first and the last tick of its issue, or the one."""
    sender, to, _ = message
    times = [f"{key} = {told(tick)}" for key, tick in zip(("at", "until"), issue)]
    return ["[[multicast]]", f'name = "m{number}"', *sender_lines(sender), f"to = {quoted(to)}", *times, ""]


def link_lines(pair, bounds, told, is_for_stamps=False):
    """The table of a link."""
    (sender, to), (least, most) = pair, bounds
    bounds = [f"least = {told(least)}", f"most = {told(most)}"]
    return ["[[link]]", *sender_lines(sender), f'to = "g{to}"', *bounds, *["stamps = true"] * is_for_stamps, ""]


def of_certificate(text):
    """The scenario in a certificate's text, which has to be one."""
    rows = [line.split(" ") for line in text.split("\n")]
    of_word = lambda word: [row[1:] for row in rows if row[0] == word]
    (delay,), names, places = of_word("delay")[0], of_word("groups")[0], sum(of_word("places"), [])
    place = lambda name: CLIENT if name == "client" else name if name in places else names.index(name)
    windows = [window_of(issue) for _, _, issue, *_ in of_word("multicast")]
    messages = [(place(sender), [place(name) for name in to], at) for (_, sender, _, *to), (at, _) in zip(of_word("multicast"), windows)]
    target, group = of_word("target")[0]
    number = [name for name, *_ in of_word("multicast")].index(target)
    links = {(place(sender), place(to)): (int(least), int(most)) for sender, to, least, most, *_ in of_word("link")}
    waits = [last - first for first, last in windows]
    stamps = {place(to) for _, to, _, _, *stamps in of_word("link") if stamps}
    return Scenario(int(delay), len(names), messages, number, place(group), links, ["real"] in of_word("time"), waits, stamps, places)


def window_of(issue):
    """The first and the last tick of issue in the word of a certificate's line: FIRST..LAST, or one tick."""
    first, _, last = issue.partition("..")
    return int(first), int(last or first)


def delays_of_certificate(text):
    """The delays in a certificate's text."""
    return line_of_certificate(text, "schedule")


def ranks_of_certificate(text):
    """The ranks of a certificate, one for each moment. They are all 0 in whole ticks, which have no line of them, and where
    that line has none."""
    return line_of_certificate(text, "order") or [0] * len(of_certificate(text).moments())


def line_of_certificate(text, word):
    """The numbers in the line of a certificate that begins with a word; none where there is no such line."""
    rows = (line.split(" ") for line in text.split("\n"))
    return [int(number) for row in rows if row[0] == word for number in row[1:]]


def chance_message(chance, delay, groups):
    """A message to one to three groups, mostly from a client."""
    size = min(groups, chance.choice([1, 2, 2, 2, 3]))
    to = sorted(chance.sample(range(groups), size))
    sender = chance.choice([CLIENT, CLIENT, CLIENT, *range(groups)])
    return sender, to, chance.randint(0, 3 * delay)


def chance_links(chance, delay, groups):
    """Links for some of the pairs of places."""
    places = [CLIENT, *range(groups)]
    pairs = [(a, b) for a in places for b in range(groups) if a != b]
    chosen = chance.sample(pairs, chance.randint(1, len(pairs)))
    return {pair: sorted((chance.randint(1, delay), chance.randint(1, delay))) for pair in chosen}


def chance_scenario(chance, real):
    """A scenario of two to five messages, a third of the time with links. In real time packets are faster, so that more
    happens at once."""
    delay, groups = chance.choice([1, 1, 2, 2, 3] if real else [2, 2, 3, 3, 4]), chance.choice([2, 2, 3, 4])
    messages = [chance_message(chance, delay, groups) for _ in range(chance.randint(2, 5))]
    target = chance.randrange(len(messages))
    at = chance.choice(messages[target][1])
    links = chance_links(chance, delay, groups) if chance.random() < 0.34 else {}
    return Scenario(delay, groups, messages, target, at, links, real)


def chance_waits(chance, delay, number, target):
    """How long each of so many messages may wait: some of them, with the target or without it, the target alone, or all of
    them as long."""
    others = [message for message in range(number) if message != target]
    waiting = {chance.choice(others), *(message for message in others if chance.random() < 0.6)}
    kind = chance.choice(["others", "others", "target too", "target alone", "all as long"])
    if kind == "all as long":
        return [chance.randint(1, 2 * delay)] * number
    waiting = {target} if kind == "target alone" else waiting | {target} if kind == "target too" else waiting
    return [chance.randint(1, 3 * delay) if message in waiting else 0 for message in range(number)]


def chance_rival(chance, delay, groups, at, begin, wait):
    """A message that may wait so long, mostly to the group where the target is asked about, around the tick `begin` and later."""
    to = set(chance.sample(range(groups), min(groups, chance.choice([1, 2, 2, 2, 2, 3]))))
    to |= {at} if chance.random() < 0.8 else set()
    first = begin + chance.randint(-wait, 2 * delay - wait // 2)
    return chance.choice([CLIENT, *range(groups)]), sorted(to), max(0, first)


def chance_narrow_links(chance, delay, groups):
    """Links for most pairs of places, more than half of them of one delay, so that few packets have a choice."""
    pairs = [(a, b) for a in [CLIENT, *range(groups)] for b in range(groups) if a != b and chance.random() < 0.8]
    leasts = {pair: chance.randint(1, delay) for pair in pairs}
    return {pair: [least, least if chance.random() < 0.6 else chance.randint(least, delay)] for pair, least in leasts.items()}


def chance_windows(chance, real):
    """A scenario of two to four messages, of which one or more may wait, the target or others, and most come to the target's
    group while the target is on its way, now and then long after tick 0. Few packets have a choice of delays, so that all
    waits can be tried with all delays."""
    delay, groups = chance.choice([1, 2, 2, 3] if real else [2, 2, 3, 3, 4]), chance.choice([2, 2, 3])
    number = chance.choice([2, 3, 3] if real else [2, 3, 3, 4])
    target, at = chance.randrange(number), chance.randrange(groups)
    begin = chance.choice([0, 0, 0, 900_000]) + chance.randint(0, delay)
    waits = chance_waits(chance, delay, number, target)
    messages = [chance_rival(chance, delay, groups, at, begin, wait) for wait in waits]
    sender, to, _ = messages[target]
    messages[target] = sender, sorted({at, *to}), begin
    return Scenario(delay, groups, messages, target, at, chance_narrow_links(chance, delay, groups), real, waits)


def chance_home(chance, real):
    """A scenario of two to four messages, most of them of groups that send to themselves, where most groups have links to
    themselves, some of which are for stamps, too; in a third of them each message may wait."""
    delay, groups = chance.choice([1, 2, 2, 3] if real else [2, 3, 3, 4]), chance.choice([2, 2, 3])
    messages = []
    for _ in range(chance.randint(2, 4)):
        to = sorted(chance.sample(range(groups), chance.choice([1, 2, 2])))
        messages.append((chance.choice([CLIENT, *to, *to]), to, chance.randint(0, 2 * delay)))
    target = chance.randrange(len(messages))
    homes = {(group, group): sorted((chance.randint(1, delay), chance.randint(1, delay))) for group in range(groups) if chance.random() < 0.7}
    waits = [chance.randint(0, 2) for _ in messages] if chance.random() < 0.34 else None
    links = chance_narrow_links(chance, delay, groups) | homes
    stamps = {group for group, _ in homes if chance.random() < 0.4}
    return Scenario(delay, groups, messages, target, chance.choice(messages[target][1]), links, real, waits, stamps)


def chance_target(chance, real):
    """A scenario as `chance_scenario` makes it, but that the target may wait one to four ticks; half of the time each other
    message may as well."""
    scenario = chance_scenario(chance, real)
    wait, is_alone = chance.randint(1, 4), chance.random() < 0.5
    return scenario.waiting([0 if is_alone and number != scenario.target else wait for number in range(len(scenario.messages))])


def with_places(chance, scenario):
    """The scenario with one to three places of clients, from which most of what clients sent comes, and from which links lead to
    most groups."""
    places = [f"p{number}" for number in range(chance.choice([1, 1, 2, 3]))]
    messages = [(sender if is_group(sender) else chance.choice([CLIENT, *places, *places]), *rest) for sender, *rest in scenario.messages]
    ways = [(place, group) for place in places for group in range(scenario.groups) if chance.random() < 0.7]
    ranges = [sorted((chance.randint(1, scenario.delay), chance.randint(1, scenario.delay))) for _ in ways]
    return scenario.with_parts(messages=messages, links=scenario.links | dict(zip(ways, ranges)), places=places)


def maybe_with_places(chance, scenario):
    """The scenario, a quarter of the time with places of clients."""
    return with_places(chance, scenario) if chance.random() < 0.25 else scenario


def chance_placed(chance, real):
    """A scenario with places of clients, and else as `chance_scenario`, `chance_target` or `chance_home` makes it."""
    made = chance.choice([chance_scenario, chance_target, chance_home])
    return with_places(chance, made(chance, real))


def small_scenarios(chance, most=MOST_SCHEDULES, real=False, made=chance_scenario):
    """Scenarios by chance, made so, each with at most so many delays for all packets together, without end."""
    while True:
        scenario = made(chance, real)
        if scenario.size() <= most:
            yield scenario


def issue_ticks(scenario, packets, schedule):
    """When each message is issued."""
    waited = {number: ticks for (number, _, _, which), ticks in zip(packets, schedule) if which is WAIT}
    return [at + waited.get(number, 0) for number, (_, _, at) in enumerate(scenario.messages)]


def times(scenario, packets, schedule):
    """When each message arrives at each of its groups, and when it is committed there."""
    takes = dict(zip(packets, schedule))
    issue = issue_ticks(scenario, packets, schedule)
    pairs = [(m, sender, to, g) for m, (sender, to, _) in enumerate(scenario.messages) for g in to]
    arrival = {(m, g): issue[m] + takes.get((m, sender, g, MESSAGE), 0) for m, sender, _, g in pairs}
    commit = {(m, g): max(arrival[m, h] + takes.get((m, h, g, PROPOSAL), 0) for h in to) for m, _, to, g in pairs}
    return arrival, commit


class Run:
    """The clocks of all groups, and the local and final stamps that they have given: a stamp is a time and a group."""

    def __init__(self, scenario):
        self.scenario, self.clock = scenario, [0] * scenario.groups
        self.local, self.final = {}, {}

    def act(self, message, group, is_commit):
        """A message arrives at a group, or is committed there."""
        if is_commit:
            _, to, _ = self.scenario.messages[message]
            stamp = self.final[message, group] = max(self.local[message, each] for each in to)
            self.clock[group] = max(self.clock[group], stamp[0])
        else:
            self.clock[group] += 1
            self.local[message, group] = (self.clock[group], group)

    def having(self, moment):
        """The run with one moment more, beside this one."""
        new = Run(self.scenario)
        new.clock, new.local, new.final = self.clock[:], self.local.copy(), self.final.copy()
        new.act(*moment)
        return new

    def key(self):
        """All that what follows depends on."""
        return tuple(self.clock), frozenset(self.local.items()), frozenset(self.final)

    def has_delivered(self):
        """Whether the target is delivered at its group: nothing that waits there has a lesser stamp."""
        mine = self.final.get((self.scenario.target, self.scenario.at))
        waiting = (stamp for key, stamp in self.local.items() if key[1] == self.scenario.at and key not in self.final)
        return mine is not None and all(stamp > mine for stamp in waiting)


def moments_of(scenario, packets, schedule, ranks):
    """What happens, as (tick, rank, is it a commit, message, group). A commit's rank counts as no less than that of its
    message's arrival at the group where both are in one tick."""
    arrival, commit = times(scenario, packets, schedule)
    rank = dict(zip(scenario.moments(), ranks))
    for (message, group), tick in arrival.items():
        first, last = rank[message, group, False], rank[message, group, True]
        yield tick, first, False, message, group
        yield commit[message, group], max(first, last) if commit[message, group] == tick else last, True, message, group


def latency(scenario, packets, schedule, ranks=None):
    """The latency of one schedule. Inside a tick moments come in the order of their ranks; where these are equal, as in
    whole ticks, arrivals stand before commits, and then the numbers decide. Deliveries come last."""
    moments = sorted(moments_of(scenario, packets, schedule, ranks or itertools.repeat(0)))
    run = Run(scenario)
    for (tick, _, is_commit, message, group), following in zip(moments, [*moments[1:], (math.inf,)]):
        run.act(message, group, is_commit)
        if following[0] > tick and run.has_delivered():
            return tick - issue_ticks(scenario, packets, schedule)[scenario.target]
    raise AssertionError("the target is never delivered")


def may_follow(moment, rest):
    """Whether a moment may be the next of the rest of its tick: a message is committed after it has arrived."""
    message, group, is_commit = moment
    return not is_commit or (message, group, False) not in rest


def in_any_order(runs, moments):
    """The runs with the moments of one group in one tick, in each order in which messages arrive before they are committed."""
    reached = {(frozenset(moments), run.key()): run for run in runs}
    for _ in moments:
        steps = ((rest - {moment}, run.having(moment)) for (rest, _), run in reached.items() for moment in rest if may_follow(moment, rest))
        reached = {(rest, run.key()): run for rest, run in steps}
    return list(reached.values())


def latest(scenario, packets, schedule):
    """The greatest latency of these delays, where the moments of one tick at one group come in any order."""
    runs = [Run(scenario)]
    moments = sorted(moments_of(scenario, packets, schedule, itertools.repeat(0)))
    for tick, at_once in itertools.groupby(moments, key=lambda moment: moment[0]):
        by_group = {}
        for _, _, is_commit, message, group in at_once:
            by_group.setdefault(group, []).append((message, group, is_commit))
        for group in by_group.values():
            runs = in_any_order(runs, group)
        runs = [run for run in runs if not run.has_delivered()]
        if not runs:
            return tick - issue_ticks(scenario, packets, schedule)[scenario.target]
    raise AssertionError("the target is never delivered")


def greatest(scenario):
    """The greatest latency of all schedules."""
    packets = list(scenario.packets())
    worst = latest if scenario.real else latency
    return max(worst(scenario, packets, delays) for delays in itertools.product(*scenario.ranges()))
