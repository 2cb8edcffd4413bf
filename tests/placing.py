"""Plans as a reader of TOML has them: their placements, and the scenario of each, in each order of the groups.

This is written from docs/FORMATS.md, and shares nothing with the program. A plan is the table of its text, and so is a
scenario; a placement tells the site of each group.
"""

import itertools

from tables import targets_of, tick_of, ticks

# What sends a message that has no sender in a scenario.
CLIENT = None


def deadlines_of(table, at_most=None):
    """The deadline of each message that has one, in ticks."""
    told = ((message["name"], message.get("within", at_most)) for message in table["multicast"])
    return {name: ticks(table, within) for name, within in told if within is not None}


def listed(value):
    """A list, of which a string tells the one member."""
    return [value] if isinstance(value, str) else value


def pairs_of(link):
    """From which site to which site a table of links leads: to no site from itself, unless there is nothing else."""
    pairs = list(itertools.product(listed(link["from"]), listed(link["to"])))
    pairs += [(to, sender) for sender, to in pairs] if link.get("both") else []
    return [(sender, to) for sender, to in pairs if sender != to] or pairs


def ranges_of(plan):
    """The range from each site to each for which one is written."""
    return {pair: (link["least"], link["most"]) for link in plan.get("link", []) for pair in pairs_of(link)}


def homes_of(plan):
    """The sites at which each group may be, in the order of the groups."""
    homes = {group["name"]: listed(group["sites"]) for group in plan["group"]}
    return {group: homes[group] for group in plan["groups"]}


def keeps_apart(plan, placement):
    """Whether no two groups are at one site that are to be apart."""
    return all(len({placement[group] for group in groups}) == len(groups) for groups in plan.get("apart", []))


def placements(plan):
    """All placements of a plan."""
    homes = homes_of(plan)
    every = (dict(zip(homes, sites)) for sites in itertools.product(*homes.values()))
    return [placement for placement in every if keeps_apart(plan, placement)]


def client_sites(plan):
    """The sites from which clients send some message, in the order of the sites."""
    senders = {message["from"] for message in plan["multicast"]}
    return [site for site in plan["sites"] if site in senders]


def places_of(plan, placement):
    """The site of each sender: of the clients at the first site from which some send, of the groups, and of the groups that
    stand for the clients at other sites."""
    first, *others = client_sites(plan) or [None]
    clients = {CLIENT: first} if first else {}
    return clients | {group: placement[group] for group in plan["groups"]} | {site: site for site in others}


def link_of(sender, to, bounds):
    """The table of a link."""
    return ({} if sender is CLIENT else {"from": sender}) | {"to": to, "least": bounds[0], "most": bounds[1]}


def links_of(plan, placement):
    """The links of a placement's scenario."""
    ranges, places = ranges_of(plan), places_of(plan, placement)
    for sender, group in itertools.product(places, plan["groups"]):
        bounds = ranges.get((places[sender], placement[group]))
        if sender != group and bounds:
            yield link_of(sender, group, bounds)


def message_of(message, first):
    """A message of the scenario: one of the first site's clients has no sender."""
    return {key: value for key, value in message.items() if (key, value) != ("from", first)}


def scenario_of(plan, placement, order=None, target=None):
    """The scenario of a placement, with its groups in this order, or as the plan lists them, and this target."""
    first, *others = client_sites(plan) or [None]
    head = {key: plan[key] for key in ("time", "delay", "least") if key in plan}
    head |= {"tick": f"{tick_of(plan)} ns"} if tick_of(plan) else {}
    asked = {"message": target[0], "group": target[1]} if target else plan.get("target")
    return head | {
        "groups": list(order or [*plan["groups"], *others]),
        "multicast": [message_of(message, first) for message in plan["multicast"]],
        "link": list(links_of(plan, placement)),
    } | ({"target": asked} if asked else {})


def orders_of(plan):
    """All orders of the groups; those that stand for clients come last, since nothing goes to them."""
    return [(*order, *client_sites(plan)[1:]) for order in itertools.permutations(plan["groups"])]


def longest(plan, scenario):
    """How long what goes from one place to another takes at most, in ticks; nothing goes from a place to itself."""
    links = {(link.get("from", CLIENT), link["to"]): ticks(plan, link["most"]) for link in scenario["link"]}
    return lambda sender, to: 0 if sender == to else links.get((sender, to)) or ticks(plan, plan["delay"])


def total_of(plan, placement):
    """The longest from the issue of each message to its commit, summed over all messages and the groups that they go to."""
    scenario = scenario_of(plan, placement)
    most = longest(plan, scenario)
    commits = lambda message, group: max(most(message.get("from", CLIENT), other) + most(other, group) for other in message["to"])
    return sum(commits(message, group) for message in scenario["multicast"] for group in message["to"])
